//! Builds `x87.rs` with one edit: an `Ite` literal becomes a call, so
//! that it is recorded like the other constructors.

/// How the literal begins, and what stands for it: the fields in braces
/// stay as they are.
const LITERAL: &str = "Expr::Ite {";
const CALL: &str = "r2smt_ir::ite! {";

/// How many literals `x87.rs` has.
const EXPECTED: usize = 3;

fn main() {
    if let Some(src) = sources::at_hand() {
        let text = sources::text(&src.x87);
        let found = text.matches(LITERAL).count();
        assert_eq!(found, EXPECTED, "`{LITERAL}` in {}", src.x87.display());
        sources::write_x87(&text.replace(LITERAL, CALL), &sources::probe());
    }
}
