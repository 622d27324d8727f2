//! The edits. What is cut and put in is recorded, and the redo list is dropped.
use super::EditLine;
use crate::answers::{found, outcome, Outcome, Refusal};
use crate::causes::{Handed, Place, Size};
use crate::codes::{At, CharSearch, Movement, Word, WordAction};
use crate::ffi;
use std::ops::Range;

impl EditLine {
    /// A text to put in, beside the room that there is for it.
    fn given(&self, text: &str) -> Size {
        Size::Given { len: text.len(), room: self.text.len() }
    }

    /// The whole text becomes another, the cursor `pos`.
    pub fn update(&mut self, text: &str, pos: usize) -> Result<Outcome, Refusal> {
        let answer = edit!(self, tlf_line_update, text.as_ptr(), text.len(), pos);
        let (sizes, places) = ([self.given(text)], [Place::Beyond { place: pos, len: text.len() }]);
        Handed { sizes: &sizes, texts: &[text], places: &places, ..Handed::default() }.outcome(answer.number)
    }

    /// Puts a character in n times; the cursor goes behind.
    pub fn insert(&mut self, ch: char, n: u16) -> Result<Outcome, Refusal> {
        let answer = edit!(self, tlf_line_insert, ch.into(), n);
        Handed { ch: Some(ch), ..Handed::default() }.outcome(answer.number)
    }

    /// Puts a text in n times; the cursor goes behind. `Nothing` where it is empty.
    pub fn yank(&mut self, text: &str, n: u16) -> Result<Outcome, Refusal> {
        let answer = edit!(self, tlf_line_yank, text.as_ptr(), text.len(), n);
        Handed { sizes: &[self.given(text)], texts: &[text], ..Handed::default() }.outcome(answer.number)
    }

    /// Puts a text in for the `yank_size` bytes before the cursor. An empty one is `Nothing`, and cuts all the same.
    pub fn yank_pop(&mut self, yank_size: usize, text: &str) -> Result<Outcome, Refusal> {
        let answer = edit!(self, tlf_line_yank_pop, yank_size, text.as_ptr(), text.len());
        let places = [Place::YankSize { size: yank_size, cursor: self.line.cursor }];
        let handed = Handed { sizes: &[self.given(text)], texts: &[text], places: &places, ..Handed::default() };
        handed.outcome(answer.number)
    }

    /// Cuts n clusters from the cursor on. The places between which it cut, in the text as it was.
    pub fn delete(&mut self, n: u16) -> Result<Option<Range<usize>>, Refusal> {
        let answer = edit!(self, tlf_line_delete, n);
        found(answer.number, answer.from..answer.to)
    }

    /// Cuts n clusters before the cursor.
    pub fn backspace(&mut self, n: u16) -> Result<Outcome, Refusal> {
        outcome(edit!(self, tlf_line_backspace, n).number)
    }

    /// Cuts to the end of the line, or the newline at the cursor.
    pub fn kill_line(&mut self) -> Result<Outcome, Refusal> {
        outcome(edit!(self, tlf_line_kill_line).number)
    }

    /// Cuts to the end of the text.
    pub fn kill_buffer(&mut self) -> Result<Outcome, Refusal> {
        outcome(edit!(self, tlf_line_kill_buffer).number)
    }

    /// Cuts back to the start of the line, or the newline before the cursor.
    pub fn discard_line(&mut self) -> Result<Outcome, Refusal> {
        outcome(edit!(self, tlf_line_discard_line).number)
    }

    /// Cuts back to the start of the text.
    pub fn discard_buffer(&mut self) -> Result<Outcome, Refusal> {
        outcome(edit!(self, tlf_line_discard_buffer).number)
    }

    /// Exchanges the clusters before and at the cursor.
    pub fn transpose_chars(&mut self) -> Result<Outcome, Refusal> {
        outcome(edit!(self, tlf_line_transpose_chars).number)
    }

    /// Cuts n words back.
    pub fn delete_prev_word(&mut self, word: Word, n: u16) -> Result<Outcome, Refusal> {
        outcome(edit!(self, tlf_line_delete_prev_word, word as u32, n).number)
    }

    /// Cuts n words forward.
    pub fn delete_word(&mut self, at: At, word: Word, n: u16) -> Result<Outcome, Refusal> {
        outcome(edit!(self, tlf_line_delete_word, at as u32, word as u32, n).number)
    }

    /// Cuts to the n-th match.
    pub fn delete_to(&mut self, search: CharSearch, n: u16) -> Result<Outcome, Refusal> {
        let (search, ch) = search.codes();
        let answer = edit!(self, tlf_line_delete_to, search, ch.into(), n);
        Handed { ch: Some(ch), ..Handed::default() }.outcome(answer.number)
    }

    /// Gives the next word another case.
    pub fn edit_word(&mut self, action: WordAction) -> Result<Outcome, Refusal> {
        outcome(edit!(self, tlf_line_edit_word, action as u32).number)
    }

    /// Exchanges the n-th word on and the n-th before that one. `Nothing` may move the cursor.
    pub fn transpose_words(&mut self, n: u16) -> Result<Outcome, Refusal> {
        outcome(edit!(self, tlf_line_transpose_words, n).number)
    }

    /// Puts a text in for a range, as one record.
    pub fn replace(&mut self, range: Range<usize>, text: &str) -> Result<Outcome, Refusal> {
        let answer = edit!(self, tlf_line_replace, range.start, range.end, text.as_ptr(), text.len());
        let (sizes, places) = ([self.given(text)], self.places(range));
        Handed { sizes: &sizes, texts: &[text], places: &places, ..Handed::default() }.outcome(answer.number)
    }

    /// Cuts a range; the cursor goes to its start.
    pub fn delete_range(&mut self, range: Range<usize>) -> Result<Outcome, Refusal> {
        let answer = edit!(self, tlf_line_delete_range, range.start, range.end);
        Handed { places: &self.places(range), ..Handed::default() }.outcome(answer.number)
    }

    fn places(&self, range: Range<usize>) -> [Place; 2] {
        let Range { start, end } = range;
        [Place::Beyond { place: end, len: self.line.len }, Place::StartAfterEnd { start, end }]
    }

    /// Cuts what a movement goes over.
    pub fn kill(&mut self, movement: Movement) -> Result<Outcome, Refusal> {
        let m = movement.codes();
        let answer = edit!(self, tlf_line_kill, m.mvt, m.n, m.at, m.word, m.search, m.ch);
        Handed { ch: movement.searched(), ..Handed::default() }.outcome(answer.number)
    }

    /// Indents or dedents the lines from the movement's first to the last that a newline ends.
    pub fn indent(&mut self, movement: Movement, amount: u8, dedent: bool) -> Result<Outcome, Refusal> {
        let m = movement.codes();
        let answer = edit!(self, tlf_line_indent, m.mvt, m.n, m.at, m.word, m.search, m.ch, amount, dedent.into());
        Handed { ch: movement.searched(), ..Handed::default() }.outcome(answer.number)
    }
}
