//! The library's functions on any slices.

unsafe extern "C" {
    fn x87_classify(flat: *const u8, flat_len: usize, out: *mut u64, out_len: usize) -> u32;

    fn x87_why(flat: *const u8, flat_len: usize, out: *mut u64, out_len: usize) -> u32;

    fn x87_effect(flat: *const u8, flat_len: usize, out: *mut u64, out_len: usize) -> u32;

    fn x87_read_record(
        input: *const u8,
        input_len: usize,
        at: usize,
        flat: *mut u8,
        flat_len: usize,
        out: *mut u64,
        out_len: usize,
    ) -> u32;

    fn x87_lift(
        record: *const u8,
        record_len: usize,
        state: *mut u64,
        state_len: usize,
        nodes: *mut u64,
        nodes_len: usize,
        statements: *mut u64,
        statements_len: usize,
        out: *mut u64,
        out_len: usize,
    ) -> u32;

    fn x87_lift_record(
        input: *const u8,
        input_len: usize,
        at: usize,
        state: *mut u64,
        state_len: usize,
        nodes: *mut u64,
        nodes_len: usize,
        statements: *mut u64,
        statements_len: usize,
        out: *mut u64,
        out_len: usize,
    ) -> u32;

    fn x87_image_read(
        image: *const u8,
        image_len: usize,
        low: u64,
        high: u64,
        out: *mut u64,
        out_len: usize,
    ) -> u32;

    fn x87_image_write(image: *mut u8, image_len: usize, low: u64, high: u64) -> u32;

    fn x87_check(
        nodes: *const u64,
        nodes_len: usize,
        count: usize,
        out: *mut u64,
        out_len: usize,
    ) -> u32;

    fn x87_evaluate(
        nodes: *const u64,
        nodes_len: usize,
        count: usize,
        given: *const u64,
        given_len: usize,
        column: *mut u64,
        column_len: usize,
        out: *mut u64,
        out_len: usize,
    ) -> u32;

    fn x87_smt_write(
        nodes: *const u64,
        nodes_len: usize,
        count: usize,
        root: usize,
        text: *mut u8,
        text_len: usize,
        out: *mut u64,
        out_len: usize,
    ) -> u32;

    fn x87_smt_read(
        text: *const u8,
        text_len: usize,
        nodes: *mut u64,
        nodes_len: usize,
        out: *mut u64,
        out_len: usize,
    ) -> u32;
}

/// As [`crate::classify`], on any lengths.
pub fn classify(flat: &[u8], out: &mut [u64]) -> u32 {
    // SAFETY: each pointer comes from a slice of the length beside it,
    // the two do not overlap, and the library keeps neither.
    unsafe { x87_classify(flat.as_ptr(), flat.len(), out.as_mut_ptr(), out.len()) }
}

/// As [`crate::why`], on any lengths.
pub fn why(flat: &[u8], out: &mut [u64]) -> u32 {
    // SAFETY: as in `classify`.
    unsafe { x87_why(flat.as_ptr(), flat.len(), out.as_mut_ptr(), out.len()) }
}

/// As [`crate::effect`], on any lengths.
pub fn effect(flat: &[u8], out: &mut [u64]) -> u32 {
    // SAFETY: as in `classify`.
    unsafe { x87_effect(flat.as_ptr(), flat.len(), out.as_mut_ptr(), out.len()) }
}

/// As [`crate::read_record`], on any lengths.
pub fn read_record(input: &[u8], at: usize, flat: &mut [u8], out: &mut [u64]) -> u32 {
    // SAFETY: as in `classify`.
    unsafe {
        x87_read_record(
            input.as_ptr(),
            input.len(),
            at,
            flat.as_mut_ptr(),
            flat.len(),
            out.as_mut_ptr(),
            out.len(),
        )
    }
}

/// As [`crate::lift`], on any lengths.
pub fn lift(
    flat: &[u8],
    state: &mut [u64],
    nodes: &mut [u64],
    statements: &mut [u64],
    out: &mut [u64],
) -> u32 {
    // SAFETY: as in `classify`.
    unsafe {
        x87_lift(
            flat.as_ptr(),
            flat.len(),
            state.as_mut_ptr(),
            state.len(),
            nodes.as_mut_ptr(),
            nodes.len(),
            statements.as_mut_ptr(),
            statements.len(),
            out.as_mut_ptr(),
            out.len(),
        )
    }
}

/// As [`crate::lift_record`], on any lengths.
pub fn lift_record(
    input: &[u8],
    at: usize,
    state: &mut [u64],
    nodes: &mut [u64],
    statements: &mut [u64],
    out: &mut [u64],
) -> u32 {
    // SAFETY: as in `classify`.
    unsafe {
        x87_lift_record(
            input.as_ptr(),
            input.len(),
            at,
            state.as_mut_ptr(),
            state.len(),
            nodes.as_mut_ptr(),
            nodes.len(),
            statements.as_mut_ptr(),
            statements.len(),
            out.as_mut_ptr(),
            out.len(),
        )
    }
}

/// As [`crate::image_read`], on any lengths.
pub fn image_read(image: &[u8], low: u64, high: u64, out: &mut [u64]) -> u32 {
    // SAFETY: as in `classify`.
    unsafe {
        x87_image_read(
            image.as_ptr(),
            image.len(),
            low,
            high,
            out.as_mut_ptr(),
            out.len(),
        )
    }
}

/// As [`crate::image_write`], on any lengths.
pub fn image_write(image: &mut [u8], low: u64, high: u64) -> u32 {
    // SAFETY: as in `classify`.
    unsafe { x87_image_write(image.as_mut_ptr(), image.len(), low, high) }
}

/// As [`crate::check`], on any lengths.
pub fn check(nodes: &[u64], count: usize, out: &mut [u64]) -> u32 {
    // SAFETY: as in `classify`.
    unsafe {
        x87_check(
            nodes.as_ptr(),
            nodes.len(),
            count,
            out.as_mut_ptr(),
            out.len(),
        )
    }
}

/// As [`crate::evaluate`], on any lengths.
pub fn evaluate(
    nodes: &[u64],
    count: usize,
    given: &[u64],
    column: &mut [u64],
    out: &mut [u64],
) -> u32 {
    // SAFETY: as in `classify`.
    unsafe {
        x87_evaluate(
            nodes.as_ptr(),
            nodes.len(),
            count,
            given.as_ptr(),
            given.len(),
            column.as_mut_ptr(),
            column.len(),
            out.as_mut_ptr(),
            out.len(),
        )
    }
}

/// As [`crate::smt_write`], on any lengths.
pub fn smt_write(
    nodes: &[u64],
    count: usize,
    root: usize,
    text: &mut [u8],
    out: &mut [u64],
) -> u32 {
    // SAFETY: as in `classify`.
    unsafe {
        x87_smt_write(
            nodes.as_ptr(),
            nodes.len(),
            count,
            root,
            text.as_mut_ptr(),
            text.len(),
            out.as_mut_ptr(),
            out.len(),
        )
    }
}

/// As [`crate::smt_read`], on any lengths.
pub fn smt_read(text: &[u8], nodes: &mut [u64], out: &mut [u64]) -> u32 {
    // SAFETY: as in `classify`.
    unsafe {
        x87_smt_read(
            text.as_ptr(),
            text.len(),
            nodes.as_mut_ptr(),
            nodes.len(),
            out.as_mut_ptr(),
            out.len(),
        )
    }
}
