//! The check of sorts and the evaluation of a list, written by hand in C
//! (`values.c`): what the library's two calls are measured against.
//!
//! Answers, words that are told and refusals are those of the library.

unsafe extern "C" {
    fn peer_check(
        nodes: *const u64,
        nodes_len: usize,
        count: usize,
        out: *mut u64,
        out_len: usize,
    ) -> u32;

    fn peer_evaluate(
        nodes: *const u64,
        nodes_len: usize,
        count: usize,
        given: *const u64,
        given_len: usize,
        column: *mut u64,
        column_len: usize,
        out: *mut u64,
        out_len: usize,
    ) -> u32;
}

/// Check the first `count` nodes. The first word of `out` becomes the node
/// without a sort, or 0.
pub fn check(nodes: &[u64], count: usize, out: &mut [u64]) -> u32 {
    // SAFETY: each pointer comes from a slice of the length beside it, the
    // two do not overlap, and the function keeps neither.
    unsafe {
        peer_check(
            nodes.as_ptr(),
            nodes.len(),
            count,
            out.as_mut_ptr(),
            out.len(),
        )
    }
}

/// Evaluate the first `count` nodes into `column`. The first word of `out`
/// becomes the node that a refusal names, or 0.
pub fn evaluate(
    nodes: &[u64],
    count: usize,
    given: &[u64],
    column: &mut [u64],
    out: &mut [u64],
) -> u32 {
    // SAFETY: as in `check`.
    unsafe {
        peer_evaluate(
            nodes.as_ptr(),
            nodes.len(),
            count,
            given.as_ptr(),
            given.len(),
            column.as_mut_ptr(),
            column.len(),
            out.as_mut_ptr(),
            out.len(),
        )
    }
}

#[cfg(test)]
mod tests {
    use super::{check, evaluate};

    #[test]
    fn the_first_node_without_a_sort_is_named() {
        let nodes = [6, 1, 0, 1, 12, 0, 0, 0, 12, 2, 0, 0];
        let mut out = [9, 9];
        assert_eq!((check(&nodes, 3, &mut out), out), (8, [2, 9]));
        assert_eq!((check(&nodes, 2, &mut out), out), (0, [0, 9]));
        assert_eq!((check(&nodes, 4, &mut out), out), (10, [0, 9]));
        assert_eq!(check(&nodes, 2, &mut []), 10);
    }

    #[test]
    fn the_example_of_the_manual_has_its_values() {
        let nodes = [6, 1 << 63, 0x1fff, 79, 6, 0, 0x4000, 79, 8, 0, 1, 0];
        let (mut column, mut out) = ([7; 7], [7]);
        let answer = evaluate(&nodes, 3, &[0; 6], &mut column, &mut out);
        assert_eq!((answer, out), (0, [0]));
        let minus_one = [1 << 63, 0x5fff];
        assert_eq!(column[..4], [1 << 63, 0x1fff, 0, 0x4000]);
        assert_eq!(column[4..], [minus_one[0], minus_one[1], 7]);
    }

    #[test]
    fn a_refusal_writes_no_value() {
        let nodes = [2, 0, 16, 0, 5, 2, 0, 0];
        let (mut column, mut out) = ([7; 4], [7]);
        for (given, expected) in [([1 << 16, 0, 0, 0], 0), ([0, 0, 2, 0], 1)] {
            let answer = evaluate(&nodes, 2, &given, &mut column, &mut out);
            assert_eq!((answer, out, column), (9, [expected], [7; 4]));
        }
        let answer = evaluate(&nodes, 2, &[0; 4], &mut column[..3], &mut out);
        assert_eq!((answer, out, column), (10, [0], [7; 4]));
    }
}
