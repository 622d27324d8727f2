//! The texts and the logs that the calls are made on: the same for both sides, made by the same calls.
use crate::editor::Editor;
use crate::keymap::Word;
use crate::sizes::RECORDS;

pub const ENGLISH: &str = "Parish of St Mary, box 12, rentals and leases, 1701 to 1749. ";
pub const SHORT_LINES: &str = "box 12\nrentals\tleases\n";
/// German and French words with a pound sign and accents, one of them a combining mark.
pub const MIXED: &str = "Stra\u{df}e, \u{a3}3 4s 11d, e\u{301}glise Saint-Andr\u{e9}, bo\u{ee}te 7. ";
pub const NO_ASCII: &str = "\u{e9}\u{df}\u{178}e\u{301}";

/// The piece again and again, up to so many bytes.
pub fn repeated(piece: &str, len: usize) -> String {
    piece.repeat(len / piece.len())
}

/// Exactly so many bytes that begin and end as the piece does, whatever their number: between the last two pieces stand
/// the first characters of one more, and a space where one of two bytes would not fit.
pub fn text(piece: &str, len: usize) -> String {
    let rest = len % piece.len();
    let fitting = (0..=rest).rev().find(|&end| piece.is_char_boundary(end)).expect("0 is a boundary");
    let between = piece[..fitting].to_string() + &" ".repeat(rest - fitting);
    let mut text = repeated(piece, len);
    text.insert_str(text.len().saturating_sub(piece.len()), &between);
    text
}

/// Numbers below 2^31 that follow no rule a reader would see, the same at each run.
pub fn randoms() -> impl Iterator<Item = usize> {
    std::iter::successors(Some(1_u64), |n| Some(n.wrapping_mul(6_364_136_223_846_793_005).wrapping_add(1)))
        .skip(1)
        .map(|n| (n >> 33) as usize)
}

/// What is typed: a space and a word by turns, as in English. A word joins the record of the space in front of it.
const WORDS: [&str; 20] = [
    "rentals", "and", "leases", "of", "the", "parish", "box", "12", "with", "two", "maps", "1701", "to", "1749", "ink",
    "on", "vellum", "bound", "in", "calf",
];

/// So many characters typed.
pub fn typed(count: usize) -> impl Iterator<Item = char> {
    WORDS.iter().cycle().flat_map(|word| [" ", word]).flat_map(str::chars).take(count)
}

/// The size of the record of an Insert or a Delete.
const RECORD: usize = 5;

/// The characters that a batch of typing types.
pub const TYPED: usize = 64;

/// The bytes of records of a full log: as many as leave room for the records of a batch of typing.
pub fn full() -> usize {
    RECORDS - RECORD * typed(TYPED).filter(|ch| *ch == ' ').count()
}

/// Types words behind the text, cuts them again word by word, and then the space that is left; gives the bytes of
/// records that this makes.
fn type_and_cut<E: Editor>(e: &mut E, words: &[&str]) -> usize {
    for word in words {
        [" ", word].into_iter().flat_map(str::chars).for_each(|ch| assert!(e.insert(ch)));
    }
    words.iter().for_each(|_| assert!(e.delete_prev_word(Word::Emacs, 1)));
    assert!(e.backspace(1));
    RECORD * (2 * words.len() + 1)
}

/// A session of typing words, as it was when its log had so many bytes of records: lines of words, then single words,
/// so that fewer than 15 bytes are missing.
pub struct Session<E> {
    at: Vec<(usize, E)>,
}

impl<E: Editor> Session<E> {
    /// The text that it leaves as it was.
    pub const TEXT: usize = 1_000;

    pub fn new(mut sizes: Vec<usize>) -> Session<E> {
        sizes.sort();
        sizes.dedup();
        let text = text(ENGLISH, Self::TEXT);
        let (mut e, mut used, mut at) = (E::new(&text), 0, Vec::new());
        for size in sizes {
            for words in [&WORDS[..], &WORDS[..1]] {
                while used + RECORD * (2 * words.len() + 1) <= size {
                    used += type_and_cut(&mut e, words);
                }
            }
            let mut then = E::new("");
            then.restore(&e);
            assert_eq!(then.state().undo.records.len(), used);
            at.push((size, then));
        }
        Session { at }
    }

    pub fn at(&self, size: usize) -> &E {
        &self.at.iter().find(|(of, _)| *of == size).expect("a size of the session").1
    }
}
