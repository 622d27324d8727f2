//! The slip of a text: order 2 of document 02, word by word. Clusters and their columns are those of the Rust's crates.
use std::collections::VecDeque;

use unicode_segmentation::UnicodeSegmentation as _;

use crate::checks::is_white;
use crate::oracle;

/// The columns of a line.
pub const COLUMNS: usize = 60;

/// A word, or a piece of one: its clusters.
type Word<'a> = &'a [&'a str];

/// The slip of a text of the repertoire: its lines one behind the other.
pub fn slip(text: &str) -> String {
    let clusters: Vec<&str> = text.graphemes(true).collect();
    let mut parts: Vec<&[&str]> = clusters.split(|cluster| cluster.contains('\n')).collect();
    // After a \n that ends the text, or for an empty text, no line follows.
    parts.pop_if(|last| last.is_empty());
    parts.into_iter().flat_map(filled).map(|line| printed(&line)).collect()
}

/// The lines of a part without \n: each takes as many words as fit. A word over 60 columns starts a line and is cut,
/// its rest being taken as a word. A part without words is a line without words.
fn filled<'a>(part: &'a [&'a str]) -> Vec<Vec<Word<'a>>> {
    let has_white = |cluster: &&str| cluster.chars().any(|c| is_white(c.into()));
    let mut words: VecDeque<Word> = part.split(has_white).filter(|word| !word.is_empty()).collect();
    let mut lines = vec![Vec::new()];
    while let Some(word) = words.pop_front() {
        let line: &mut Vec<Word> = lines.last_mut().expect("a line");
        if fits(line, word) {
            line.push(word);
        } else if line.is_empty() {
            let (front, rest) = cut(word);
            line.push(front);
            words.push_front(rest);
        } else {
            lines.push(Vec::new());
            words.push_front(word);
        }
    }
    lines
}

fn fits(line: &[Word], word: Word) -> bool {
    columns(&[line, &[word]].concat()) <= COLUMNS
}

/// A word over 60 columns, cut between clusters where 60 columns are in front.
fn cut<'a>(word: Word<'a>) -> (Word<'a>, Word<'a>) {
    let place = (0..word.len()).find(|&place| width(&word[..place]) == COLUMNS);
    word.split_at(place.expect("a cluster has a column at most"))
}

/// The columns of words on a line, one space between.
fn columns(words: &[Word]) -> usize {
    words.iter().map(|word| width(word)).sum::<usize>() + words.len().saturating_sub(1)
}

fn width(word: Word) -> usize {
    word.iter().map(|cluster| oracle::columns(cluster)).sum()
}

/// A line as it is printed: padded with spaces and closed by \n.
fn printed(line: &[Word]) -> String {
    let words: Vec<String> = line.iter().map(|word| word.concat()).collect();
    format!("{}{}\n", words.join(" "), " ".repeat(COLUMNS - columns(line)))
}
