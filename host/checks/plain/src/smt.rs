//! Formulas as SMT-LIB text: how the nodes that a root needs are written,
//! which texts there are, and what a reader says of any bytes.
//!
//! A text is one of the subset if it is that of the marked nodes of some
//! list that passes the check, where at least one node is marked and each
//! operand of a marked node is. The reader takes the texts of the subset and
//! no others. It goes from token to token, each of which is one of a family
//! of texts, and every member of a family is the next part of some text of
//! the subset. So where none of them stands in full, the longest beginning of
//! one says how far some text of the subset goes along with the bytes.

mod cursor;
mod lines;
mod reader;
mod subset;
mod terms;
mod text;
mod universe;

pub use reader::{Read, numbered, read};
pub use text::{arity, compact, is_declared, marked, name, needed, text, write};
pub use universe::Universe;
