//! The inputs of slips, in five parts: small texts, words at the columns where they are cut, characters and foreign
//! bytes, texts of 4,096 bytes and around, drawn texts.
use crate::checks::MAX_TEXT;
use crate::r#gen::{BLOCK, CODE_POINTS, Rng, foreign_places, members, small_text, small_texts};
use crate::runner::Runner;
use crate::slip_gen::{BETWEEN, LETTERS, drawn_step, with_pages};
use crate::slip_lists::Step;
use crate::slip_reading::COLUMNS;
use crate::tally::Tally;

/// `n` comparisons, or the account of the first difference.
pub fn run(n: u64, seed: u64, trace: bool, tally: &mut Tally) -> Result<(), String> {
    let mut rng = Rng::new(seed);
    let mut runner = Runner::new(tally, "slips", trace);
    small(&mut runner, n / 4)?;
    at_the_cut(&mut runner, n / 4)?;
    characters(&mut runner, n / 8)?;
    largest(&mut runner, n / 16)?;
    drawn(&mut runner, &mut rng, n)
}

/// These steps, as far as `share` comparisons reach.
fn each(runner: &mut Runner, share: u64, steps: impl Iterator<Item = Step>) -> Result<(), String> {
    let limit = runner.done + share;
    for step in steps {
        if runner.done >= limit {
            break;
        }
        runner.list([], &[step])?;
    }
    Ok(())
}

/// Small texts, length by length.
fn small(runner: &mut Runner, share: u64) -> Result<(), String> {
    let texts = (0..).flat_map(|letters| (0..small_texts(letters)).map(move |number| small_text(number, letters)));
    each(runner, share, texts.flat_map(|text| with_pages(text.as_bytes()).collect::<Vec<_>>()))
}

/// The columns of a first word: around those of a line and around those of two.
const FIRST: [usize; 10] = [
    COLUMNS - 3,
    COLUMNS - 2,
    COLUMNS - 1,
    COLUMNS,
    COLUMNS + 1,
    COLUMNS + 2,
    2 * COLUMNS - 1,
    2 * COLUMNS,
    2 * COLUMNS + 1,
    2 * COLUMNS + 2,
];
/// And of a second.
const SECOND: [usize; 6] = [0, 1, 2, COLUMNS, COLUMNS + 1, 2 * COLUMNS + 1];

/// Two words of these columns, of each letter and with everything between them: without a mark in front, a third behind
/// them; and with a mark, the same behind them as between.
fn at_the_cut(runner: &mut Runner, share: u64) -> Result<(), String> {
    let word = |columns: usize, letter: &str| letter.repeat(columns);
    let mut texts = Vec::new();
    for (first, second) in FIRST.into_iter().flat_map(|first| SECOND.map(|second| (first, second))) {
        for (between, letter) in BETWEEN.into_iter().flat_map(|between| LETTERS.map(|letter| (between, letter))) {
            let two = format!("{}{between}{}", word(first, letter), word(second, letter));
            texts.extend([format!("{two} b"), format!("\u{301}{two}{between}")]);
        }
    }
    each(runner, share, texts.iter().flat_map(|text| with_pages(text.as_bytes())))
}

/// Each code point to U+03FF as a text; each character of the repertoire inside a word, at its front and at the cut;
/// foreign bytes at every place of a text.
fn characters(runner: &mut Runner, share: u64) -> Result<(), String> {
    let points = (0..CODE_POINTS).filter_map(char::from_u32).map(|c| c.to_string().into_bytes());
    let cut = "x".repeat(COLUMNS - 1);
    let inside = members().flat_map(move |c| [format!("-{c}-\n{c}-"), format!("{cut}{c}{c}a")]).map(String::into_bytes);
    let foreign = foreign_places().map(|(place, foreign, _)| {
        let mut text = b"deeds ".repeat(BLOCK / 6 + 1);
        text[place..].iter_mut().zip(foreign).for_each(|(byte, &foreign)| *byte = foreign);
        text
    });
    let texts = points.chain(inside).chain(foreign);
    each(runner, share, texts.flat_map(|text| with_pages(&text).collect::<Vec<_>>()))
}

/// What texts of 4,096 bytes are made of: one word, words, newlines, white space, marks, pieces whose last character
/// the end of the text cuts.
#[rustfmt::skip]
const PIECES: [&str; 12] = [
    "x", "deeds ", "\n", "\r\n", " ", "a\n", "\u{301}", "\u{E9}", "e\u{301}", "\u{A0}", "\t\u{301}", "a\r",
];

/// Texts of 4,096 bytes, one less and one more, of each piece over and over.
fn largest(runner: &mut Runner, share: u64) -> Result<(), String> {
    let text = |piece: &str, len: usize| piece.bytes().cycle().take(len).collect::<Vec<u8>>();
    let texts = PIECES.iter().flat_map(|piece| [MAX_TEXT, MAX_TEXT - 1, MAX_TEXT + 1].map(|len| text(piece, len)));
    each(runner, share, texts.flat_map(|text| with_pages(&text).collect::<Vec<_>>()))
}

/// Drawn texts until `n` comparisons are done.
fn drawn(runner: &mut Runner, rng: &mut Rng, n: u64) -> Result<(), String> {
    while runner.done < n {
        runner.list([], &[drawn_step(rng)])?;
    }
    Ok(())
}
