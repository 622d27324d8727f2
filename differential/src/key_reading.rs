//! Bytes read as a key: order 1's count, key and table, and check 4 of the bytes.
use crate::checks::{first_character, in_repertoire};
use crate::key_calls::{CHARACTER, ESC, KINDS, NO_KEY};

/// A key: its row in the table, its count, and its character where it is one.
pub struct Press {
    pub row: usize,
    pub n: u16,
    pub ch: u32,
}

/// The whole of the bytes is one key, behind at most one ESC with digits; else no key.
pub fn read(bytes: &[u8]) -> Press {
    let (n, key) = counted(bytes);
    let ch = character(key);
    let named = KINDS.iter().position(|kind| !kind.bytes.is_empty() && kind.bytes == key);
    let row = named.or(ch.map(|_| CHARACTER)).unwrap_or(NO_KEY);
    Press { row, n, ch: ch.unwrap_or(0) }
}

/// The count and what stands behind it. All digits behind an ESC are the count's; without one n is 1.
fn counted(bytes: &[u8]) -> (u16, &[u8]) {
    let Some((&ESC, rest)) = bytes.split_first() else { return (1, bytes) };
    let digits = rest.iter().take_while(|byte| byte.is_ascii_digit()).count();
    if digits == 0 {
        return (1, bytes);
    }
    let (digits, key) = rest.split_at(digits);
    (held(digits), key)
}

/// A decimal number, 65,535 where it is more. No more than five digits behind leading zeros can be less.
fn held(digits: &[u8]) -> u16 {
    let zeros = digits.iter().take_while(|&&digit| digit == b'0').count();
    let digits = std::str::from_utf8(&digits[zeros..]).expect("ASCII");
    match digits.len() {
        0 => 0,
        1..=5 => digits.parse::<u32>().expect("a number").min(u16::MAX.into()) as u16,
        _ => u16::MAX,
    }
}

/// The character of the repertoire that these bytes are, if they are one and no more.
fn character(bytes: &[u8]) -> Option<u32> {
    first_character(bytes).filter(|&(c, len)| len == bytes.len() && in_repertoire(c)).map(|(c, _)| c)
}

/// Check 4 of a key's bytes: all but those below 0x20 and 0x7F are UTF-8 and of the repertoire. A character that such
/// a byte breaks is none.
pub fn is_foreign(mut bytes: &[u8]) -> bool {
    while let Some(&first) = bytes.first() {
        let passed = match first {
            0x00..=0x1F | 0x7F => 1,
            _ => match first_character(bytes) {
                Some((c, len)) if in_repertoire(c) => len,
                _ => return true,
            },
        };
        bytes = &bytes[passed..];
    }
    false
}
