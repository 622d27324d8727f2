//! Order 2: the worked examples, what is refused, and what the order says of every slip.
mod common;

use common::{line, Rng};
use tulofewa::ffi::{self, ValueAnswer};
use tulofewa::{advance, foreign, slip, width, Foreign, Refusal, Size};

/// A text, the lines of its slip without their padding, and why. `{59}` is x, 59 times.
const ROWS: [(&str, &[&str], &str); 30] = [
    ("", &[], "an empty text has no line"),
    ("deeds", &["deeds"], "one word, padded"),
    ("deeds\n", &["deeds"], "no line after a \\n that ends the text"),
    ("deeds\r\n", &["deeds"], "the same with \\r\\n"),
    ("\n", &[""], "a line without words is 60 spaces"),
    ("\n\n", &["", ""], "two of them"),
    ("a\n\nb", &["a", "", "b"], "a blank line between"),
    ("   ", &[""], "white space alone is a line without words"),
    ("a\n ", &["a", ""], "white space behind the last \\n: the text does not end in it, so a line follows"),
    ("a\rb", &["a b"], "\\r alone is white space and ends no line"),
    ("\n\r", &["", ""], "\\r behind the last \\n: one more line without words"),
    ("a\t b\u{A0}c", &["a b c"], "tabs, spaces and U+00A0 part words; one space between"),
    ("  a", &["a"], "leading white space is not printed"),
    ("{58} a", &["{58} a"], "58 + 1 + 1 columns fit"),
    ("{59} a", &["{59}", "a"], "59 + 1 + 1 columns do not"),
    ("{60} a", &["{60}", "a"], "a word of 60 columns is not cut"),
    ("{61} a", &["{60}", "x a"], "61: cut at 60, its rest is a word and takes others behind it"),
    ("a {61} b", &["a", "{60}", "x b"], "a word over 60 starts a line"),
    ("{120}", &["{60}", "{60}"], "120: two pieces"),
    ("{121}\nb", &["{60}", "{60}", "x", "b"], "121: three, and \\n ends the line of the rest"),
    ("{59}e\u{301}y", &["{59}e\u{301}", "y"], "the cut is between clusters: the mark stays with its e"),
    ("e\u{301} \u{301}f", &["e\u{301} f"], "a space with a mark is white space; the mark is not printed"),
    ("\u{301}a", &["\u{301}a"], "a mark at the text's start is a cluster of width 0, part of the word"),
    ("a\t\u{301}b", &["a \u{301}b"], "a mark behind a tab is a cluster of its own"),
    ("a\n\u{301}", &["a", "\u{301}"], "a word of width 0 and 60 spaces"),
    ("{59}\t\u{301}", &["{59} \u{301}"], "59 + 1 + 0 columns fit"),
    ("{60}\t\u{301}", &["{60}", "\u{301}"], "60 + 1 + 0 do not"),
    ("\u{301}{60}", &["\u{301}{60}"], "60 columns with a mark in front are not over 60"),
    ("\u{301}{61}", &["\u{301}{60}", "x"], "61: the mark stays in front"),
    ("éé Ÿ", &["éé Ÿ"], "columns are not bytes: 7 bytes are 4 columns, so 56 spaces follow"),
];

/// A row's text with its x.
fn spelled(row: &str) -> String {
    let (front, rest) = row.split_once('{').unwrap_or((row, "0}"));
    let (count, behind) = rest.split_once('}').unwrap();
    [front, &"x".repeat(count.parse().unwrap()), behind].concat()
}

/// A line padded to 60 columns and closed.
fn printed(row: &str) -> String {
    let line = spelled(row);
    let padding = " ".repeat(60 - width(&line, 0));
    line + &padding + "\n"
}

/// What is in a page before.
const BEFORE: u8 = 0x9F;

/// The entry's answer, and the page afterwards.
fn laid(text: &[u8], page_len: usize) -> (ValueAnswer, Vec<u8>) {
    let mut page = vec![BEFORE; page_len];
    // SAFETY: two buffers, each with its length; the page is an allocation of this function, apart from the text.
    let answer = unsafe { ffi::tlf_text_slip(text.as_ptr(), text.len(), page.as_mut_ptr(), page_len) };
    (answer, page)
}

#[track_caller]
fn is_refused(text: &[u8], page_len: usize, number: u32) {
    let (answer, page) = laid(text, page_len);
    assert_eq!(answer, ValueAnswer { number, value: 0 });
    assert!(page.iter().all(|&byte| byte == BEFORE), "the page has changed");
}

/// Each with a page that is longer than its slip, one as long, and one that is a byte short.
#[test]
fn the_worked_examples() {
    for (text, lines, why) in ROWS {
        let text = spelled(text);
        let wanted: String = lines.iter().copied().map(printed).collect();
        assert_eq!(slip(&text).as_deref(), Ok(wanted.as_str()), "{why}");
        assert_eq!(line(&text, 0).slip(), Ok(wanted.clone()), "{why}");
        let value = wanted.len();
        for behind in [0, 3] {
            let page = [wanted.as_bytes(), &[BEFORE; 3][..behind]].concat();
            assert_eq!(laid(text.as_bytes(), page.len()), (ValueAnswer { number: 0, value }, page), "{why}");
        }
        if value > 0 {
            is_refused(text.as_bytes(), value - 1, 14);
        }
    }
}

#[test]
fn pages_by_their_length() {
    let deeds = |page_len| laid(b"deeds", page_len).0;
    assert_eq!([0, 60].map(deeds), [ValueAnswer { number: 14, value: 0 }; 2]);
    assert_eq!([61, 62].map(deeds), [ValueAnswer { number: 0, value: 61 }; 2]);
    let longest = "\n".repeat(4_096);
    let (answer, page) = laid(longest.as_bytes(), 249_856);
    assert_eq!(answer, ValueAnswer { number: 0, value: 249_856 });
    assert_eq!(slip(&longest).as_deref(), Ok(printed("").repeat(4_096).as_str()));
    assert_eq!(page, printed("").repeat(4_096).as_bytes());
    is_refused(longest.as_bytes(), 249_855, 14);
}

/// 2 comes before 4, and 4 before 14.
#[test]
fn refusals() {
    is_refused(&[b'\n'; 4_097], 0, 2);
    is_refused(&[b'\n'; 4_097], 250_000, 2);
    is_refused(&[0xFF; 4_097], 250_000, 2);
    is_refused("aµ".as_bytes(), 0, 4);
    is_refused("aµ".as_bytes(), 122, 4);
    is_refused(b"deeds\xC3", 400, 4);
    let foreign_at = |ch, at| Err(Refusal::Foreign(Foreign::Char { ch, at }));
    assert_eq!(slip("aµ\u{4E2D}"), foreign_at('µ', 1));
    assert_eq!(slip("box 12\u{B}"), foreign_at('\u{B}', 6));
    for long in [4_097, 1 << 20] {
        assert_eq!(slip(&"\u{AD}a".repeat(long)), Err(Refusal::Sizes(Size::Slip { len: 3 * long })));
        assert_eq!(slip(&"a".repeat(long)), Err(Refusal::Sizes(Size::Slip { len: long })));
    }
    assert_eq!(slip(&"a".repeat(4_096)).map(|slip| slip.len()), Ok(69 * 61));
}

/// Words of any length, white space and marks, and seldom a character outside the repertoire.
fn drawn(rng: &mut Rng) -> String {
    let mut text = String::new();
    for _ in 0..rng.below(60) {
        match rng.below(4) {
            0 => text.push_str(&"x".repeat(rng.pick(&[1, 5, 20, 58, 59, 60, 61, 121]))),
            1 => text.push_str(rng.pick(&[" ", " \u{301}", "\r\n", "\n", "\t\u{302}"])),
            _ => text.extend(Some(rng.character()).filter(|&ch| ch != '\u{4E2D}' || rng.below(20) == 0)),
        }
    }
    text
}

/// The characters of a text that are in its words: a mark joins what it follows, but not U+0009, \n and \r.
fn in_words(text: &str) -> String {
    let mut behind_white = false;
    let mut words = String::new();
    for ch in text.chars() {
        let mark = advance(0, ch) == 0;
        let white = matches!(ch, '\t' | '\n' | '\r' | ' ' | '\u{A0}') || mark && behind_white;
        behind_white = white && !matches!(ch, '\t' | '\n' | '\r');
        words.extend(Some(ch).filter(|_| !white));
    }
    words
}

/// Every line has 60 columns, the words come out complete and in order, and every \n ends a line.
#[test]
fn any_texts() {
    let mut rng = Rng(2);
    let mut refused = 0;
    for _ in 0..2_000 {
        let text = drawn(&mut rng);
        let Ok(slip) = slip(&text) else {
            assert!(foreign(&text).is_some(), "{text:?}");
            refused += 1;
            continue;
        };
        assert_eq!(foreign(&text), None);
        assert!(slip.lines().all(|line| width(line, 0) == 60), "{text:?}");
        assert!(slip.is_empty() && text.is_empty() || slip.ends_with('\n'), "{text:?}");
        assert_eq!(slip.replace([' ', '\n'], ""), in_words(&text));
        assert!(slip.lines().count() >= text.lines().count(), "{text:?}");
    }
    assert!((1..1_000).contains(&refused), "{refused}");
}
