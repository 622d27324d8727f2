//! A terminal's bytes cut into whole keys.
use crate::TEXT_MAX;

const ESC: u8 = 0x1B;
/// A count of as many digits is over 65,535, where counts are held: further ones change nothing.
const COUNT_DIGITS: usize = 6;
/// A key has at most as many bytes; a longer control sequence, which no terminal sends, loses some of its own.
const LONGEST: usize = 64;
const PASTE: &[u8] = b"\x1b[200~";
const PASTE_END: &[u8] = b"\x1b[201~";

/// What a terminal sends.
#[derive(Clone, Debug, PartialEq, Eq, Hash)]
pub enum Input {
    /// One key, whole: a character, a control byte, ESC and a key, or one of these behind ESC and digits, its count.
    /// [`EditLine::key`](crate::EditLine::key) takes it. Cursor and function keys are ESC `[` or ESC `O` and what belongs
    /// to it: they are for the program to bind.
    Key(Vec<u8>),
    /// What was pasted, where the terminal was told to bracket it (`ESC [ ? 2004 h`).
    Paste(Vec<u8>),
    /// As many bytes were pasted, more than a line can take: they are not kept.
    LongPaste(usize),
}

/// Cuts a terminal's bytes into keys, in whatever pieces they come. Nothing waits for a clock: ESC goes with what comes
/// next, however late.
#[derive(Clone, Debug, Default)]
pub struct Keys {
    /// The bytes of a key that is not whole.
    held: Vec<u8>,
    paste: Option<Paste>,
}

/// A paste that has not ended.
#[derive(Clone, Debug, Default)]
struct Paste {
    text: Vec<u8>,
    len: usize,
    /// As many bytes of `PASTE_END` came last.
    ending: usize,
}

/// What the bytes held are.
enum Held {
    /// A key to which something belongs that has not come.
    Part,
    Whole,
    /// A key that cannot go on, and behind it the first byte of another.
    WholeAndOne,
}

impl Keys {
    /// Nothing has come.
    #[must_use]
    pub fn new() -> Keys {
        Keys::default()
    }

    /// The keys that some bytes make whole.
    pub fn feed(&mut self, bytes: &[u8]) -> Vec<Input> {
        let mut inputs = Vec::new();
        for &byte in bytes {
            let Some(paste) = &mut self.paste else {
                self.push(byte, &mut inputs);
                continue;
            };
            if paste.push(byte) {
                inputs.extend(self.paste.take().map(Paste::input));
            }
        }
        inputs
    }

    /// The bytes of a key that is not whole; none in a paste.
    #[must_use]
    pub fn held(&self) -> &[u8] {
        &self.held
    }

    fn push(&mut self, byte: u8, inputs: &mut Vec<Input>) {
        self.held.push(byte);
        match held(&self.held) {
            Held::Part => shorten(&mut self.held),
            Held::Whole => {
                let key = std::mem::take(&mut self.held);
                if key == PASTE {
                    self.paste = Some(Paste::default());
                } else {
                    inputs.push(Input::Key(key));
                }
            }
            Held::WholeAndOne => {
                self.held.pop();
                inputs.push(Input::Key(std::mem::take(&mut self.held)));
                self.push(byte, inputs);
            }
        }
    }
}

impl Paste {
    /// Takes a byte. Is it the end's last?
    fn push(&mut self, byte: u8) -> bool {
        if PASTE_END.get(self.ending) == Some(&byte) {
            self.ending = self.ending.saturating_add(1);
            return self.ending == PASTE_END.len();
        }
        // What looked like the end was text. ESC stands in front of the end alone.
        for &byte in PASTE_END.iter().take(self.ending) {
            self.keep(byte);
        }
        self.ending = usize::from(byte == ESC);
        if byte != ESC {
            self.keep(byte);
        }
        false
    }

    fn keep(&mut self, byte: u8) {
        self.len = self.len.saturating_add(1);
        if self.text.len() < TEXT_MAX {
            self.text.push(byte);
        }
    }

    fn input(self) -> Input {
        if self.len > TEXT_MAX {
            Input::LongPaste(self.len)
        } else {
            Input::Paste(self.text)
        }
    }
}

/// What some bytes are, all of which but the last are part of a key.
fn held(bytes: &[u8]) -> Held {
    let (_, key) = split_count(bytes);
    match key {
        [] | [ESC] => Held::Part,
        [ESC, ESC] => Held::WholeAndOne,
        [ESC, b'['] | [ESC, b'O'] | [ESC, b'[', b'['] => Held::Part,
        // the Linux console's function keys
        [ESC, b'[', b'[', ..] => Held::Whole,
        [ESC, b'[', .., last] => match last {
            0x20..=0x3F => Held::Part,
            0x40..=0x7E => Held::Whole,
            _ => Held::WholeAndOne,
        },
        [ESC, b'O', last, ..] => match last {
            0x20..=0x7E => Held::Whole,
            _ => Held::WholeAndOne,
        },
        [ESC, character @ ..] | character => held_character(character),
    }
}

/// What bytes are that begin a character, by RFC 3629. A byte that begins none is a key by itself.
fn held_character(bytes: &[u8]) -> Held {
    let len = match bytes.first() {
        Some(0xC2..=0xDF) => 2,
        Some(0xE0..=0xEF) => 3,
        Some(0xF0..=0xF4) => 4,
        _ => 1,
    };
    match bytes {
        [_, .., last] if !matches!(last, 0x80..=0xBF) => Held::WholeAndOne,
        _ if bytes.len() < len => Held::Part,
        _ => Held::Whole,
    }
}

/// A key's count, ESC and digits, and the rest.
fn split_count(key: &[u8]) -> (&[u8], &[u8]) {
    let digits = match key {
        [ESC, rest @ ..] => rest.iter().take_while(|byte| byte.is_ascii_digit()).count(),
        _ => 0,
    };
    let len = if digits == 0 { 0 } else { digits.saturating_add(1) };
    key.split_at_checked(len).unwrap_or((key, &[]))
}

/// Drops of an unfinished key what changes nothing: a count's leading zeros and its digits past those that say that it is
/// over 65,535, and the end of an overlong control sequence.
fn shorten(held: &mut Vec<u8>) {
    let (count, key) = split_count(held);
    let zeros = count.iter().skip(1).take_while(|byte| **byte == b'0').count();
    let digits = count.len().saturating_sub(1);
    if key.is_empty() && zeros > 0 && digits > 1 {
        held.remove(1);
    } else if held.len() > LONGEST || key.is_empty() && digits > COUNT_DIGITS {
        held.pop();
    }
}

/// A key's count, where it has one, held at 65,535, and the key behind it: for the keys that a program binds itself.
#[must_use]
pub fn key_count(key: &[u8]) -> (Option<u16>, &[u8]) {
    let (count, key) = split_count(key);
    let digit = |n: u16, byte: &u8| n.saturating_mul(10).saturating_add(u16::from(byte.wrapping_sub(b'0')));
    (count.get(1..).map(|digits| digits.iter().fold(0, digit)), key)
}

#[cfg(test)]
mod tests {
    use super::*;

    fn key(bytes: &[u8]) -> Input {
        Input::Key(bytes.to_vec())
    }

    /// Cut in one piece and byte by byte.
    #[track_caller]
    fn cuts(bytes: &[u8], wanted: &[Input], rest: &[u8]) {
        let mut keys = Keys::new();
        assert_eq!((keys.feed(bytes).as_slice(), keys.held()), (wanted, rest));
        let mut keys = Keys::new();
        let one_by_one: Vec<_> = bytes.iter().flat_map(|byte| keys.feed(&[*byte])).collect();
        assert_eq!((one_by_one.as_slice(), keys.held()), (wanted, rest));
    }

    #[test]
    fn characters_and_control_bytes() {
        cuts("aé\u{4e2d}\u{1f600}".as_bytes(), &["a", "é", "\u{4e2d}", "\u{1f600}"].map(|s| key(s.as_bytes())), b"");
        cuts(b"\x01\r\n\x7f", &[key(b"\x01"), key(b"\r"), key(b"\n"), key(b"\x7f")], b"");
    }

    #[test]
    fn bytes_that_are_no_character() {
        cuts(b"\xff\x80\xc1a", &[key(b"\xff"), key(b"\x80"), key(b"\xc1"), key(b"a")], b"");
        cuts(b"\xc3a\xe2\x82\x01", &[key(b"\xc3"), key(b"a"), key(b"\xe2\x82"), key(b"\x01")], b"");
        cuts(b"\xc3\xc3\xa9", &[key(b"\xc3"), key("é".as_bytes())], b"");
        cuts(b"\xe2\x82", &[], b"\xe2\x82");
    }

    #[test]
    fn escape_keys() {
        cuts(b"\x1bf\x1b\xc3\xa9\x1b\x07", &[key(b"\x1bf"), key("\x1bé".as_bytes()), key(b"\x1b\x07")], b"");
        cuts(b"\x1b", &[], b"\x1b");
        cuts(b"\x1b\x1b[A", &[key(b"\x1b"), key(b"\x1b[A")], b"");
    }

    #[test]
    fn counts() {
        cuts(b"\x1b3\x06\x1b12\x1bb\x1b2\x1b[D", &[key(b"\x1b3\x06"), key(b"\x1b12\x1bb"), key(b"\x1b2\x1b[D")], b"");
        cuts(b"\x1b12", &[], b"\x1b12");
        cuts(b"\x1b0\x06\x1b0070\x06", &[key(b"\x1b0\x06"), key(b"\x1b70\x06")], b"");
        cuts(&[b"\x1b".as_slice(), &[b'7'; 500], b"\x06"].concat(), &[key(b"\x1b777777\x06")], b"");
        cuts(b"\x1b3\x1b\x1bf", &[key(b"\x1b3\x1b"), key(b"\x1bf")], b"");
    }

    #[test]
    fn counts_of_keys() {
        assert_eq!(key_count(b"\x1b[D"), (None, &b"\x1b[D"[..]));
        assert_eq!(key_count(b"\x1b0\x1b[D"), (Some(0), &b"\x1b[D"[..]));
        assert_eq!(key_count(b"\x1b65535\x7f"), (Some(65_535), &b"\x7f"[..]));
        assert_eq!(key_count(b"\x1b65536\x7f"), (Some(65_535), &b"\x7f"[..]));
        assert_eq!(key_count(b"3"), (None, &b"3"[..]));
    }

    #[test]
    fn cursor_and_function_keys() {
        cuts(
            b"\x1b[A\x1bOH\x1b[1;5D\x1b[[A",
            &[b"\x1b[A".as_slice(), b"\x1bOH", b"\x1b[1;5D", b"\x1b[[A"].map(key),
            b"",
        );
        cuts(b"\x1b[1\x01\x1bO\xff", &[key(b"\x1b[1"), key(b"\x01"), key(b"\x1bO"), key(b"\xff")], b"");
        let long = [b"\x1b[".as_slice(), &[b'1'; 500], b"~a"].concat();
        assert_eq!(Keys::new().feed(&long).last(), Some(&key(b"a")));
        assert!(Keys::new()
            .feed(&long)
            .iter()
            .all(|input| matches!(input, Input::Key(key) if key.len() <= LONGEST + 1)));
    }

    #[test]
    fn pastes() {
        cuts(
            b"a\x1b[200~b\x1b[\x1b[201\x1b[201~c",
            &[key(b"a"), Input::Paste(b"b\x1b[\x1b[201".to_vec()), key(b"c")],
            b"",
        );
        cuts(b"\x1b[200~\x1b[201~", &[Input::Paste(Vec::new())], b"");
        cuts(b"\x1b[200~b", &[], b"");
    }

    #[test]
    fn long_pastes() {
        for len in [TEXT_MAX, TEXT_MAX + 1, 100_000] {
            let text = vec![b'x'; len];
            let inputs = Keys::new().feed(&[PASTE, text.as_slice(), PASTE_END].concat());
            let wanted = if len > TEXT_MAX { Input::LongPaste(len) } else { Input::Paste(text) };
            assert_eq!(inputs, [wanted]);
        }
    }
}
