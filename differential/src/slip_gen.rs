//! Inputs of slips: words around the columns at which they are cut, what stands between them, and pages around the
//! length of the slip.
use crate::checks::{MAX_TEXT, is_white};
use crate::r#gen::{FOREIGN, Rng, behind, boundary, drawn_text, member};
use crate::slip_case::slip;
use crate::slip_lists::Step;
use crate::slip_reading::COLUMNS;

const MARKS: [char; 3] = ['\u{300}', '\u{301}', '\u{333}'];

/// What parts words, or does not: white space with marks and without, newlines, a mark that is a cluster by itself,
/// nothing.
#[rustfmt::skip]
pub const BETWEEN: [&str; 20] = [
    " ", "  ", "\t", "\r", "\n", "\r\n", "\u{A0}", " \u{301}", "\u{A0}\u{301}", "\t\u{301}", "\r\u{301}", "\n\u{301}",
    "\r\n\u{301}", "\n\n", "\n\r", "\r\r\n", " \n", "\n ", "\u{301}", "",
];

/// A letter of one byte, one of two, one with a mark.
pub const LETTERS: [&str; 3] = ["x", "\u{E9}", "e\u{301}"];

/// The columns of a word: few, around those of a line and around those of two.
fn drawn_columns(rng: &mut Rng) -> usize {
    let (few, some) = (rng.below(4), rng.below(14));
    let (near, twice) = (COLUMNS - 2 + rng.below(5), 2 * COLUMNS - 1 + rng.below(4));
    rng.pick(&[few, few, some, some, some, near, near, twice])
}

/// A word of so many columns, one in eight with marks in front: one letter over and over, or any characters, or letters
/// with marks.
fn drawn_word(rng: &mut Rng, columns: usize) -> String {
    let front = if rng.one_in(8) { rng.below(3) } else { 0 };
    let mut word: String = (0..front).map(|_| rng.pick(&MARKS)).collect();
    let style = rng.below(5);
    for _ in 0..columns {
        match style {
            0..3 => word.push_str(LETTERS[style]),
            3 => word.push(letter(rng)),
            _ => {
                word.push(letter(rng));
                word.extend((0..rng.below(3)).map(|_| rng.pick(&MARKS)));
            }
        }
    }
    word
}

/// A character of the repertoire that is neither white space nor a mark.
fn letter(rng: &mut Rng) -> char {
    loop {
        let c = member(rng);
        if !is_white(c.into()) && !('\u{300}'..='\u{333}').contains(&c) {
            return c;
        }
    }
}

/// Up to so many words, with one space or anything else between them, in front and at the end.
fn words(rng: &mut Rng, most: usize) -> String {
    let mut text = String::new();
    for _ in 0..=rng.below(most + 1) {
        if rng.one_in(3) {
            text += rng.pick(&BETWEEN);
        }
        let columns = drawn_columns(rng);
        text += &drawn_word(rng, columns);
        text += if rng.one_in(3) { rng.pick(&BETWEEN) } else { " " };
    }
    if rng.one_in(2) {
        text.pop();
    }
    text
}

/// Words, or a text in one of the styles that other calls have; one in 40 is long, up to 4,097 bytes.
fn drawn(rng: &mut Rng) -> Vec<u8> {
    let (few, any, most) = (rng.below(200), rng.below(MAX_TEXT), MAX_TEXT + rng.below(2));
    let (len, count) = if rng.one_in(40) { (rng.pick(&[any, most]), 80) } else { (few, 7) };
    if rng.one_in(3) { drawn_text(rng, len) } else { words(rng, count).into_bytes() }
}

/// A text with a page; one text in twelve is spoiled by foreign bytes.
pub fn drawn_step(rng: &mut Rng) -> Step {
    let mut text = drawn(rng);
    if rng.one_in(12) {
        let place = boundary(rng, &text);
        text.splice(place..place, rng.pick(&FOREIGN).iter().copied());
    }
    let page = drawn_page(rng, &text);
    Step { text, page }
}

/// The length of a text's slip; where the text is refused, one that no slip of so many bytes passes.
fn room(text: &[u8]) -> usize {
    slip(text).map_or_else(|_| (COLUMNS + 1) * text.len(), |slip| slip.len())
}

/// The length of a page: that of the slip, one byte less, less, none, more.
fn drawn_page(rng: &mut Rng, text: &[u8]) -> usize {
    let len = room(text);
    let (less, more) = (rng.below(len + 1), len + behind(rng, 2 * COLUMNS).len());
    rng.pick(&[len, len, len, len.saturating_sub(1), less, 0, more, more])
}

/// A text with pages as long as its slip, one byte short and some bytes longer; one that is refused with no page and
/// with one that is long enough.
pub fn with_pages(text: &[u8]) -> impl Iterator<Item = Step> {
    let len = room(text);
    let pages = match slip(text) {
        Ok(_) => [Some(len), len.checked_sub(1), Some(len + 9)],
        Err(_) => [Some(0), Some(len), None],
    };
    pages.into_iter().flatten().map(|page| Step { text: text.to_vec(), page })
}
