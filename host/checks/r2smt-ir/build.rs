//! Names `expr.rs` and `stmt.rs` where they lie, unchanged.

fn main() {
    if let Some(src) = sources::at_hand() {
        let allowed = "#[allow(clippy::all, clippy::pedantic)]";
        let (expr, stmt) = (src.expr, src.stmt);
        sources::write_out(
            "modules.rs",
            &format!(
                "{allowed}\n#[path = {expr:?}]\npub mod expr;\n{allowed}\n#[path = {stmt:?}]\npub mod stmt;\n"
            ),
        );
    }
}
