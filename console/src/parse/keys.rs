//! The words of a key, as they stand behind the command: what bytes they are.
use crate::mistakes::Mistake;

/// The bytes of all words. Whether they are one key is for the library to say.
pub fn bytes<'a>(words: impl Iterator<Item = &'a str>) -> Result<Vec<u8>, Mistake<'a>> {
    let mut all = Vec::new();
    for word in words.filter(|word| !word.is_empty()) {
        all.extend(word_bytes(word).ok_or(Mistake::NoKeyWord(word))?);
    }
    Ok(all)
}

fn word_bytes(word: &str) -> Option<Vec<u8>> {
    let named = match word {
        "ESC" => 0x1B,
        "SP" => b' ',
        "TAB" => b'\t',
        "LF" => b'\n',
        "CR" => b'\r',
        _ => return control(word).or_else(|| hexadecimal(word)).or_else(|| plain(word)),
    };
    Some(vec![named])
}

/// C- with a letter, or one of @ [ \ ] ^ and underscore: the byte below 0x20 that it is with the control key.
fn control(word: &str) -> Option<Vec<u8>> {
    match word.strip_prefix("C-")?.as_bytes() {
        [key] => match key.to_ascii_uppercase() {
            key @ b'@'..=b'_' => Some(vec![key & 0x1F]),
            _ => None,
        },
        _ => None,
    }
}

/// x: with two digits for each byte.
fn hexadecimal(word: &str) -> Option<Vec<u8>> {
    let digits = word.strip_prefix("x:").filter(|digits| !digits.is_empty() && digits.len() % 2 == 0)?;
    let digit = |byte: &u8| char::from(*byte).to_digit(16).and_then(|digit| u8::try_from(digit).ok());
    let byte = |pair: &[u8]| pair.iter().map(digit).try_fold(0, |byte: u8, digit| Some(byte << 4 | digit?));
    digits.as_bytes().chunks(2).map(byte).collect()
}

/// Digits, or one character.
fn plain(word: &str) -> Option<Vec<u8>> {
    let is_digits = word.bytes().all(|byte| byte.is_ascii_digit());
    (is_digits || word.chars().nth(1).is_none()).then(|| word.as_bytes().to_vec())
}

#[cfg(test)]
mod tests {
    use super::*;

    #[test]
    fn words() {
        let rows: [(&str, &[u8]); 11] = [
            ("ESC 3 C-f", b"\x1b3\x06"),
            ("ESC 65536  ESC b", b"\x1b65536\x1bb"),
            ("C-_", b"\x1f"),
            ("C-A", b"\x01"),
            ("SP", b" "),
            ("TAB LF CR", b"\t\n\r"),
            ("x:C3a9", b"\xc3\xa9"),
            ("x:ff00", b"\xff\x00"),
            ("x", b"x"),
            (":", b":"),
            ("\u{e9} \"", b"\xc3\xa9\""),
        ];
        for (line, wanted) in rows {
            assert_eq!(bytes(line.split(' ')).unwrap(), wanted, "{line}");
        }
    }

    #[test]
    fn mistakes() {
        for word in ["esc", "C-", "C-1", "C-ab", "C-\u{e9}", "x:", "x:C", "x:C3A", "x:+1", "ab", "1a", "e\u{301}"] {
            let message = bytes(["ESC", word].into_iter()).unwrap_err().to_string();
            assert!(message.contains(" is no word of a key; those are ESC, "), "{word}: {message}");
        }
    }
}
