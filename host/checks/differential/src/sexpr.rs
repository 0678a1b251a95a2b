//! What solvers print: atoms, and lists in brackets.

use std::fmt;

/// A printed term.
#[derive(Debug, Clone, PartialEq, Eq)]
pub enum Sexpr {
    Atom(String),
    List(Vec<Sexpr>),
}

impl Sexpr {
    #[must_use]
    pub fn atom(&self) -> Option<&str> {
        match self {
            Self::Atom(text) => Some(text),
            Self::List(_) => None,
        }
    }

    #[must_use]
    pub fn list(&self) -> Option<&[Self]> {
        match self {
            Self::Atom(_) => None,
            Self::List(parts) => Some(parts),
        }
    }
}

impl fmt::Display for Sexpr {
    fn fmt(&self, f: &mut fmt::Formatter<'_>) -> fmt::Result {
        match self {
            Self::Atom(text) => write!(f, "{text}"),
            Self::List(parts) => {
                let parts: Vec<String> = parts.iter().map(Self::to_string).collect();
                write!(f, "({})", parts.join(" "))
            }
        }
    }
}

/// All terms of a text, or `None` where its brackets do not match.
#[must_use]
pub fn all(text: &str) -> Option<Vec<Sexpr>> {
    let mut under_way: Vec<Vec<Sexpr>> = vec![Vec::new()];
    let spaced = text.replace('(', " ( ").replace(')', " ) ");
    for word in spaced.split_ascii_whitespace() {
        match word {
            "(" => under_way.push(Vec::new()),
            ")" => {
                let parts = under_way.pop()?;
                under_way.last_mut()?.push(Sexpr::List(parts));
            }
            _ => under_way.last_mut()?.push(Sexpr::Atom(word.into())),
        }
    }
    match under_way.len() {
        1 => under_way.pop(),
        _ => None,
    }
}

#[cfg(test)]
mod tests {
    use super::all;

    #[test]
    fn terms_are_read_and_printed_back() {
        let terms = all("sat (f (_ NaN 8 24)\n #b0) ()").expect("three terms");
        let texts: Vec<String> = terms.iter().map(ToString::to_string).collect();
        assert_eq!(texts, ["sat", "(f (_ NaN 8 24) #b0)", "()"]);
        assert_eq!((all("(a"), all("a)")), (None, None));
    }
}
