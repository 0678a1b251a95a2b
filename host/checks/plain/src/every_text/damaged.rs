//! Texts that were good until something was changed.

/// Bytes that take the place of others: digits, marks, and letters with
/// which some part of a text begins.
const BYTES: &[u8] = b"0123456789_nx#() Bdaf\nz";

/// A text cut at every length, with every byte replaced, left out or doubled,
/// with lines exchanged, left out or doubled, and the first part of it with
/// the last part of another.
#[must_use]
pub fn damaged(text: &[u8], other: &[u8]) -> Vec<Vec<u8>> {
    let mut all: Vec<Vec<u8>> = (0..text.len()).map(|cut| text[..cut].to_vec()).collect();
    for at in 0..text.len() {
        for &byte in BYTES.iter().filter(|&&byte| byte != text[at]) {
            let mut bytes = text.to_vec();
            bytes[at] = byte;
            all.push(bytes);
        }
        all.push([&text[..at], &text[at + 1..]].concat());
        all.push([&text[..=at], &text[at..]].concat());
        all.push([&text[..at], &other[at.min(other.len())..]].concat());
        let back = other.len().saturating_sub(text.len() - at);
        all.push([&text[..at], &other[back..]].concat());
    }
    all.extend(lines_changed(text));
    all
}

fn lines_changed(text: &[u8]) -> Vec<Vec<u8>> {
    let lines: Vec<&[u8]> = text.split_inclusive(|&byte| byte == b'\n').collect();
    let mut all = Vec::new();
    for one in 0..lines.len() {
        let mut less = lines.clone();
        less.remove(one);
        all.push(less.concat());
        let mut more = lines.clone();
        more.insert(one, lines[one]);
        all.push(more.concat());
        for other in 0..one {
            let mut swapped = lines.clone();
            swapped.swap(one, other);
            all.push(swapped.concat());
        }
    }
    all
}
