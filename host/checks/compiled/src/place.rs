//! Places of memory.

/// The address that a sum such as `eax+ecx*8-0x4` is, by the values of its
/// registers.
pub fn address(sum: &str, register: impl Fn(&str) -> Option<u32>) -> Option<u32> {
    let signs = sum.char_indices().filter(|(_, c)| "+-".contains(*c));
    let mut from: Vec<usize> = signs.map(|(at, _)| at).collect();
    from.push(sum.len());
    let mut address = term(&sum[..from[0]], &register)?;
    for ends in from.windows(2) {
        let value = term(&sum[ends[0] + 1..ends[1]], &register)?;
        address = if sum[ends[0]..].starts_with('-') {
            address.wrapping_sub(value)
        } else {
            address.wrapping_add(value)
        };
    }
    Some(address)
}

fn term(term: &str, register: impl Fn(&str) -> Option<u32>) -> Option<u32> {
    if let Some((scaled, scale)) = term.split_once('*') {
        return Some(register(scaled)?.wrapping_mul(scale.parse().ok()?));
    }
    match term.strip_prefix("0x") {
        Some(digits) => u32::from_str_radix(digits, 16).ok(),
        None => register(term),
    }
}

/// The number of a general register.
#[must_use]
pub fn register(name: &str) -> Option<usize> {
    let names = ["eax", "ecx", "edx", "ebx", "esp", "ebp", "esi", "edi"];
    names.iter().position(|known| *known == name)
}

#[cfg(test)]
mod tests {
    use super::address;

    #[test]
    fn sums() {
        let register = |name: &str| match name {
            "eax" => Some(0x100),
            "ecx@2a" => Some(2),
            _ => None,
        };
        for (sum, expected) in [
            ("0x804a000", 0x0804_a000),
            ("eax", 0x100),
            ("eax-0xc", 0xf4),
            ("eax+ecx@2a*8+0x4", 0x114),
            ("ecx@2a*4-0x8", 0),
        ] {
            assert_eq!(address(sum, register), Some(expected), "{sum}");
        }
        assert_eq!(address("ebx", register), None);
        assert_eq!(address("", register), None);
    }
}
