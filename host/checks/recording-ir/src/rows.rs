//! The list that the constructors write to.

use std::cell::RefCell;

/// Kind, a, b, c.
pub type Row = [u64; 4];

/// The rows of one recording, and the number of the first.
struct Recording {
    first: u32,
    rows: Vec<Row>,
}

thread_local! {
    static RECORDING: RefCell<Recording> = const {
        RefCell::new(Recording { first: 0, rows: Vec::new() })
    };
}

/// Run `work` and give its value with the rows that it wrote, of which
/// the first has the number `first`.
pub fn recorded<T>(first: u32, work: impl FnOnce() -> T) -> (T, Vec<Row>) {
    RECORDING.with_borrow_mut(|r| {
        r.first = first;
        r.rows.clear();
    });
    let value = work();
    (value, RECORDING.with_borrow(|r| r.rows.clone()))
}

/// Write one row, and give its number.
pub(crate) fn write(row: Row) -> u32 {
    RECORDING.with_borrow_mut(|r| {
        let number = r.first + u32::try_from(r.rows.len()).expect("a short recording");
        r.rows.push(row);
        number
    })
}
