//! Builds `x87.rs` unchanged.

fn main() {
    if let Some(src) = sources::at_hand() {
        sources::write_x87(&sources::text(&src.x87), &sources::probe());
    }
}
