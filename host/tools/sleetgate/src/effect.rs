//! What an instruction touches.

use sleetgate_sys::EFFECT;

use crate::{Instruction, Refusal};

/// What an instruction touches beyond the registers and the memory that
/// its operands name.
#[derive(Debug, Clone, Copy, PartialEq, Eq, Hash)]
#[allow(clippy::struct_excessive_bools)]
pub struct Effect {
    /// The stack is defined.
    pub defines_stack: bool,
    /// The status word is defined.
    pub defines_status: bool,
    /// The stack is used.
    pub uses_stack: bool,
    /// The status word is used.
    pub uses_status: bool,
    /// Flags are written.
    pub defines_flags: bool,
    /// Flags are read.
    pub reads_flags: bool,
    /// `ax` is written.
    pub writes_ax: bool,
}

/// What an instruction touches; `None` where the lifter does not model
/// it, and [`why`](crate::why()) tells why.
///
/// ```
/// use sleetgate::{Instruction, Operand, effect};
///
/// let insn = Instruction::new(0, "fnstsw", [Operand::register("ax")]);
/// let effect_of = effect(&insn)?.expect("it is modelled");
/// assert!(effect_of.uses_status && effect_of.writes_ax && !effect_of.defines_stack);
/// assert_eq!(effect(&Instruction::new(0, "fsin", []))?, None);
/// # Ok::<(), sleetgate::Refusal>(())
/// ```
///
/// # Errors
/// [`Refusal::Shape`], [`Refusal::Text`].
pub fn effect(insn: &Instruction) -> Result<Option<Effect>, Refusal> {
    let mut words = [0; EFFECT];
    let number = sleetgate_sys::effect(&insn.flat(), &mut words);
    if let Some(refusal) = Refusal::told(number, 0) {
        return Err(refusal);
    }
    let flags = words.map(|word| word != 0);
    Ok((number == 0).then_some(Effect {
        defines_stack: flags[0],
        defines_status: flags[1],
        uses_stack: flags[2],
        uses_status: flags[3],
        defines_flags: flags[4],
        reads_flags: flags[5],
        writes_ax: flags[6],
    }))
}
