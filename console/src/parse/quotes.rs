//! A text in quotes, with escapes.
use crate::mistakes::Mistake;
use std::str::Chars;

/// What stands up to a closing quote, and the line behind it.
pub fn unquoted(line: &str) -> Result<(String, &str), Mistake<'_>> {
    let mut text = String::new();
    let mut chars = line.chars();
    while let Some(ch) = chars.next() {
        match ch {
            '"' => return Ok((text, chars.as_str())),
            '\\' => text.push(escaped(&mut chars)?),
            _ => text.push(ch),
        }
    }
    Err(Mistake::Unclosed)
}

/// The character that an escape stands for; its backslash is gone.
fn escaped<'a>(chars: &mut Chars<'a>) -> Result<char, Mistake<'a>> {
    match chars.next().ok_or(Mistake::Unclosed)? {
        'n' => Ok('\n'),
        't' => Ok('\t'),
        'r' => Ok('\r'),
        ch @ ('"' | '\\') => Ok(ch),
        'u' => code_point(chars),
        other => Err(Mistake::Escape(format!("\\{other}"))),
    }
}

/// One to six hexadecimal digits in braces.
fn code_point<'a>(chars: &mut Chars<'a>) -> Result<char, Mistake<'a>> {
    let braced = chars.as_str().strip_prefix('{').and_then(|rest| rest.split_once('}'));
    let is_short = |digits: &str| (1..=6).contains(&digits.len());
    let (digits, behind) =
        braced.filter(|(digits, _)| is_short(digits)).ok_or_else(|| Mistake::Escape("\\u".to_owned()))?;
    *chars = behind.chars();
    let is_hex = digits.bytes().all(|byte| byte.is_ascii_hexdigit());
    let code = u32::from_str_radix(digits, 16).ok().filter(|_| is_hex);
    code.and_then(char::from_u32).ok_or_else(|| Mistake::Escape(format!("\\u{{{digits}}}")))
}

#[cfg(test)]
mod tests {
    use super::*;

    #[test]
    fn texts() {
        for (line, text, behind) in [
            ("\"", "", ""),
            ("a b\" 2", "a b", " 2"),
            (r#"\n\t\r\"\\" x"#, "\n\t\r\"\\", " x"),
            (r#"\u{e9}\u{0301}\u{10FFFF}""#, "\u{e9}\u{301}\u{10ffff}", ""),
        ] {
            assert_eq!(unquoted(line).unwrap(), (text.to_owned(), behind), "{line}");
        }
    }

    #[test]
    fn mistakes() {
        for (line, wanted) in [
            ("a b", "a quote is not closed"),
            ("a\\", "a quote is not closed"),
            ("\\\"", "a quote is not closed"),
            (r#"\q""#, "\\q is no escape"),
            (r#"\u""#, "\\u is no escape"),
            (r#"\u{}""#, "\\u is no escape"),
            (r#"\u{1234567}""#, "\\u is no escape"),
            (r#"\u{+41}""#, "\\u{+41} is no escape"),
            (r#"\u{d800}""#, "\\u{d800} is no escape"),
            (r#"\u{110000}""#, "\\u{110000} is no escape"),
        ] {
            let message = unquoted(line).unwrap_err().to_string();
            assert!(message.starts_with(wanted), "{line}: {message}");
        }
    }
}
