//! The disassembly of a function.

use std::collections::BTreeMap;

/// An instruction: its name and its operands.
#[derive(Debug, Clone, PartialEq, Eq)]
pub struct Instruction {
    pub name: String,
    pub operands: String,
}

impl Instruction {
    #[must_use]
    pub fn is_conditional_jump(&self) -> bool {
        self.name.starts_with('j') && self.name != "jmp"
    }

    /// The memory operand: its bits, and what stands between its brackets.
    #[must_use]
    pub fn memory(&self) -> Option<(u32, &str)> {
        let (size, place) = self.operands.split_once(" PTR ")?;
        let bits = match size {
            "WORD" => 16,
            "DWORD" => 32,
            "QWORD" => 64,
            "TBYTE" => 80,
            _ => return None,
        };
        let place = match place.strip_prefix("ds:") {
            Some(absolute) => absolute,
            None => place.strip_prefix('[')?.strip_suffix(']')?,
        };
        Some((bits, place))
    }
}

/// The instructions of a function, by their addresses.
#[derive(Debug, Clone)]
pub struct Code(BTreeMap<u32, Instruction>);

impl Code {
    /// The function of this name in a disassembly.
    #[must_use]
    pub fn of(objdump: &str, function: &str) -> Option<Self> {
        let head = format!(" <{function}>:\n");
        let (_, body) = objdump.split_once(&head)?;
        let lines = body.lines().take_while(|line| !line.is_empty());
        Some(Self(lines.filter_map(instruction).collect()))
    }

    /// Where the function begins.
    #[must_use]
    pub fn entry(&self) -> Option<u32> {
        self.0.keys().next().copied()
    }

    /// The address of an instruction by its number, from 0 on.
    #[must_use]
    pub fn address(&self, number: usize) -> Option<u32> {
        self.0.keys().nth(number).copied()
    }

    /// The instruction at an address.
    #[must_use]
    pub fn at(&self, address: u32) -> Option<&Instruction> {
        self.0.get(&address)
    }

    /// The address behind that of an instruction.
    #[must_use]
    pub fn behind(&self, address: u32) -> Option<u32> {
        self.0.range(address + 1..).next().map(|(&next, _)| next)
    }
}

fn instruction(line: &str) -> Option<(u32, Instruction)> {
    let mut fields = line.split('\t');
    let address = fields.next()?.trim().strip_suffix(':')?;
    let text = fields.nth(1)?;
    let (name, operands) = text.split_once(' ').unwrap_or((text, ""));
    let instruction = Instruction {
        name: name.to_owned(),
        operands: operands.trim().to_owned(),
    };
    Some((u32::from_str_radix(address, 16).ok()?, instruction))
}

#[cfg(test)]
mod tests {
    use super::Code;

    const TEXT: &str = "\
00000010 <f>:
  10:\t83 ec 0c             \tsub    esp,0xc
  13:\tdd 44 24 10          \tfld    QWORD PTR [esp+0x10]
  17:\td8 05 00 a0 04 08    \tfadd   DWORD PTR ds:0x804a000
  1d:\t75 f4                \tjne    13 <f+0x3>

00000020 <g>:
  20:\tc3                   \tret
";

    #[test]
    fn a_function_ends_before_the_next() {
        let code = Code::of(TEXT, "f").expect("it is there");
        assert_eq!(code.entry(), Some(0x10));
        assert_eq!(code.behind(0x17), Some(0x1d));
        assert_eq!(code.at(0x20), None);
        let memory = |address| code.at(address).and_then(|code| code.memory());
        assert_eq!(memory(0x10), None);
        assert_eq!(memory(0x13), Some((64, "esp+0x10")));
        assert_eq!(memory(0x17), Some((32, "0x804a000")));
        assert!(code.at(0x1d).is_some_and(|code| code.is_conditional_jump()));
    }
}
