//! Joint edits: code and definition made wrong together, which the theorems
//! of `agreement` must refuse. The edits stand in `edits/`, the test in
//! `tests/joint.rs`.
