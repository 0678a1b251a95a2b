//! Stand-in for the two functions of `effect.rs` that `x87.rs` calls.

use r2smt_common::Arch;
use r2smt_common::program::Memory;

/// Width of a memory operand, where it is known.
pub fn memory_operand_width(raw: &str) -> Option<u16> {
    let width = Memory::of(raw)?.width;
    (width != 0).then_some(width)
}

/// The register family that a name belongs to. `x87.rs` asks for the
/// operand of a status store only, whose one register form is `ax`; the
/// name is trimmed and taken in any case, as `register_layout` does.
pub fn canonical_register(name: &str, _arch: Arch) -> Option<&'static str> {
    name.trim().eq_ignore_ascii_case("ax").then_some("rax")
}
