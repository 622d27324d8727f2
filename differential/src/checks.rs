//! The checks of document 01, "What a call says", in number order, and what they stand on: RFC 3629 and the repertoire.
//! A call that they pass is the Rust's to decide.
use crate::ffi::Line;
use crate::line_calls::{Args, Param, VI_FIRST_PRINT};

pub const MAX_TEXT: usize = 4096;
pub const MAX_PROMPT: usize = 1024;

/// "Repertoire and clusters": what is in.
pub fn in_repertoire(c: u32) -> bool {
    match c {
        0x09 | 0x0A | 0x0D => true,
        0x20..=0x7E => true,
        0xAD | 0xB5 => false,
        0xA0..=0xFF => true,
        0x178 => true,
        0x300..=0x333 => true,
        _ => false,
    }
}

/// "Repertoire and clusters": of what is in, what is alphanumeric.
pub fn is_alphanumeric(c: u32) -> bool {
    match c {
        0x30..=0x39 | 0x41..=0x5A | 0x61..=0x7A => true,
        0xAA | 0xB2 | 0xB3 | 0xB9 | 0xBA | 0xBC..=0xBE => true,
        0xD7 | 0xF7 => false,
        0xC0..=0xFF => true,
        0x178 => true,
        _ => false,
    }
}

/// "Repertoire and clusters": of what is in, what is white space.
pub fn is_white(c: u32) -> bool {
    matches!(c, 0x09 | 0x0A | 0x0D | 0x20 | 0xA0)
}

/// The first character of `bytes` and its length: UTF8-1 to UTF8-4 of RFC 3629, section 4.
pub fn first_character(bytes: &[u8]) -> Option<(u32, usize)> {
    let lead = *bytes.first()?;
    let (len, second) = match lead {
        0x00..=0x7F => return Some((u32::from(lead), 1)),
        0xC2..=0xDF => (2, 0x80..=0xBF),
        0xE0 => (3, 0xA0..=0xBF),
        0xE1..=0xEC | 0xEE..=0xEF => (3, 0x80..=0xBF),
        0xED => (3, 0x80..=0x9F),
        0xF0 => (4, 0x90..=0xBF),
        0xF1..=0xF3 => (4, 0x80..=0xBF),
        0xF4 => (4, 0x80..=0x8F),
        _ => return None,
    };
    let tail = bytes.get(1..len)?;
    if !second.contains(&tail[0]) || !tail.iter().all(|b| (0x80..=0xBF).contains(b)) {
        return None;
    }
    let low_bits = u32::from(lead) & (0x7F >> len);
    Some((tail.iter().fold(low_bits, |c, b| c << 6 | u32::from(b & 0x3F)), len))
}

/// Check 4 of a text: UTF-8, every character in the repertoire.
pub fn is_text(mut bytes: &[u8]) -> bool {
    while !bytes.is_empty() {
        match first_character(bytes) {
            Some((c, len)) if in_repertoire(c) => bytes = &bytes[len..],
            _ => return false,
        }
    }
    true
}

/// Check 6: `place`, which is within the text, is inside a character.
pub fn splits(text: &[u8], place: usize) -> bool {
    text.get(place).is_some_and(|b| (0x80..=0xBF).contains(b))
}

/// The highest code of a parameter that is one. They count from 0 in the order in which the Rust declares them.
pub fn last_code(param: Param) -> Option<u32> {
    match param {
        Param::Mvt => Some(13),
        Param::At | Param::Word | Param::Action => Some(2),
        Param::Search => Some(3),
        _ => None,
    }
}

/// A call that is lent a text and does not write: what it is lent and given.
pub struct LineInput<'a> {
    /// C.
    pub size: usize,
    pub line: Line,
    /// The used part of the text, where it is within its buffer and `is_text` holds of it.
    pub text: Option<&'a [u8]>,
    /// The parameters that the call and its movement use: no others are tried.
    pub uses: &'a [Param],
    pub args: &'a Args,
}

/// The number by which the call is refused: the lowest whose check fails. `first_print` is where the Rust's
/// ViFirstPrint starts; its end is the cursor, and with the cursor at 0 it gives nothing before it looks.
pub fn line_call(input: &LineInput, first_print: impl FnOnce() -> Option<usize>) -> Option<u32> {
    let LineInput { size, line, uses, args, .. } = *input;
    let unknown = |&param: &Param| last_code(param).is_some_and(|last| args.get(param) > last as usize);
    let takes_pos = uses.contains(&Param::Pos);

    // 2: C over 4,096, a used length over its buffer.
    if size > MAX_TEXT || line.len > size {
        return Some(2);
    }
    // 3: a number that names no movement, word rule, stop or search.
    if uses.iter().any(unknown) {
        return Some(3);
    }
    // 4: lent text or character is not UTF-8 or is outside the repertoire.
    let Some(text) = input.text else { return Some(4) };
    if uses.contains(&Param::Ch) && !in_repertoire(args.ch) {
        return Some(4);
    }
    // 5: a cursor or end beyond the text, a start after its end.
    if line.cursor > line.len || takes_pos && args.pos > line.len {
        return Some(5);
    }
    let is_first_print = uses.contains(&Param::Mvt) && args.mvt == VI_FIRST_PRINT;
    if is_first_print && line.cursor > 0 && first_print().is_some_and(|start| start > line.cursor) {
        return Some(5);
    }
    // 6: a cursor or end inside a character.
    if splits(text, line.cursor) || takes_pos && splits(text, args.pos) {
        return Some(6);
    }
    // 7: a line move with a prompt column over 1,024.
    if uses.contains(&Param::Prompt) && args.prompt > MAX_PROMPT {
        return Some(7);
    }
    None
}
