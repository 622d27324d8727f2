//! What is foreign, and where. The repertoire is the library's: it is asked about each character.
use crate::causes::Foreign;
use crate::ffi::{self, Line};

/// Where the first character of a text stands that is outside the repertoire. None: any call takes the text, if it is
/// not too long.
///
/// ```
/// use tulofewa::{foreign, Foreign};
///
/// assert_eq!(foreign("box 12"), None);
/// assert_eq!(foreign("bo\u{17E}e 中"), Some(Foreign::Char { ch: '\u{17E}', at: 2 }));
/// ```
#[must_use]
pub fn foreign(text: &str) -> Option<Foreign> {
    first_without(text, is_member)
}

/// The same of a key's bytes, of which those below 0x20 and 0x7F are not tried.
pub(crate) fn foreign_in_key(key: &[u8]) -> Option<Foreign> {
    // the key as far as it is UTF-8, and the first bytes that are not
    let first = key.utf8_chunks().next()?;
    let (text, rest) = (first.valid(), first.invalid());
    first_without(text, |ch| ch < '\x20' || ch == '\x7F' || is_member(ch))
        .or_else(|| rest.first().map(|&byte| Foreign::Byte { byte, at: text.len() }))
}

fn first_without(text: &str, is_fit: impl Fn(char) -> bool) -> Option<Foreign> {
    text.char_indices().find(|&(_, ch)| !is_fit(ch)).map(|(at, ch)| Foreign::Char { ch, at })
}

/// Does the library take a text of this character alone?
fn is_member(ch: char) -> bool {
    let mut bytes = [0; 4];
    let text = ch.encode_utf8(&mut bytes);
    let line = Line { len: text.len(), cursor: 0 };
    // SAFETY: one buffer of this function, with its length.
    let answer = unsafe { ffi::tlf_line_set_pos(text.as_ptr(), text.len(), line, 0) };
    answer.number == 0
}
