//! Motions and questions. At most the cursor changes.
use super::EditLine;
use crate::answers::{found, outcome, Outcome, Refusal};
use crate::causes::{Handed, Place};
use crate::codes::{At, CharSearch, Movement, Word};
use crate::ffi::{self, Line, LineAnswer};
use crate::slips;
use std::ops::Range;

impl EditLine {
    /// The place n clusters on.
    pub fn next_pos(&self, n: u16) -> Result<Option<usize>, Refusal> {
        let answer = look!(self, tlf_line_next_pos, n);
        found(answer.number, answer.from)
    }

    /// The places between which a movement's text stands.
    ///
    /// With `ViFirstPrint` they are the first word's and the cursor: [`Place`] where the cursor stands before it.
    pub fn copy(&self, movement: Movement) -> Result<Option<Range<usize>>, Refusal> {
        let m = movement.codes();
        let answer = look!(self, tlf_line_copy, m.mvt, m.n, m.at, m.word, m.search, m.ch);
        let start = if movement == Movement::ViFirstPrint { self.first_print() } else { 0 };
        let places = [Place::StartAfterEnd { start, end: self.line.cursor }];
        let handed = Handed { ch: movement.searched(), places: &places, ..Handed::default() };
        handed.found(answer.number, answer.from..answer.to)
    }

    /// Where `copy` of `ViFirstPrint` starts.
    fn first_print(&self) -> usize {
        let first = Line { cursor: 0, ..self.line };
        let (at, word) = (At::Start as u32, Word::Big as u32);
        // SAFETY: one buffer, with its length.
        let answer =
            unsafe { ffi::tlf_line_move_to_next_word(self.text.as_ptr(), self.text.len(), first, at, word, 1) };
        answer.line.cursor
    }

    /// Does the cursor stand at the text's end?
    pub fn is_cursor_at_end(&self) -> Result<bool, Refusal> {
        Ok(outcome(look!(self, tlf_line_is_cursor_at_end).number)? == Outcome::Done)
    }

    /// Does only white space follow the cursor?
    pub fn is_end_of_input(&self) -> Result<bool, Refusal> {
        Ok(outcome(look!(self, tlf_line_is_end_of_input).number)? == Outcome::Done)
    }

    /// The text as a slip, by [`slip`](crate::slip()).
    pub fn slip(&self) -> Result<String, Refusal> {
        slips::slip(self.text())
    }

    fn moved(&mut self, answer: LineAnswer) -> Result<Outcome, Refusal> {
        self.line = answer.line;
        outcome(answer.number)
    }

    /// To a place. `Done` also where the cursor stands there.
    pub fn set_pos(&mut self, pos: usize) -> Result<Outcome, Refusal> {
        let answer = look!(self, tlf_line_set_pos, pos);
        self.line = answer.line;
        let places = [Place::Beyond { place: pos, len: self.line.len }];
        Handed { places: &places, ..Handed::default() }.outcome(answer.number)
    }

    /// n clusters on.
    pub fn move_forward(&mut self, n: u16) -> Result<Outcome, Refusal> {
        self.moved(look!(self, tlf_line_move_forward, n))
    }

    /// n clusters back.
    pub fn move_backward(&mut self, n: u16) -> Result<Outcome, Refusal> {
        self.moved(look!(self, tlf_line_move_backward, n))
    }

    /// To the start of the text.
    pub fn move_buffer_start(&mut self) -> Result<Outcome, Refusal> {
        self.moved(look!(self, tlf_line_move_buffer_start))
    }

    /// To the end of the text.
    pub fn move_buffer_end(&mut self) -> Result<Outcome, Refusal> {
        self.moved(look!(self, tlf_line_move_buffer_end))
    }

    /// To the start of the line.
    pub fn move_home(&mut self) -> Result<Outcome, Refusal> {
        self.moved(look!(self, tlf_line_move_home))
    }

    /// To the end of the line.
    pub fn move_end(&mut self) -> Result<Outcome, Refusal> {
        self.moved(look!(self, tlf_line_move_end))
    }

    /// n words back.
    pub fn move_to_prev_word(&mut self, word: Word, n: u16) -> Result<Outcome, Refusal> {
        self.moved(look!(self, tlf_line_move_to_prev_word, word as u32, n))
    }

    /// n words on.
    pub fn move_to_next_word(&mut self, at: At, word: Word, n: u16) -> Result<Outcome, Refusal> {
        self.moved(look!(self, tlf_line_move_to_next_word, at as u32, word as u32, n))
    }

    /// n lines up, by columns; `prompt` is the column where the first line starts.
    pub fn move_to_line_up(&mut self, n: u16, prompt: usize) -> Result<Outcome, Refusal> {
        self.moved(look!(self, tlf_line_move_to_line_up, n, prompt))
    }

    /// n lines down, likewise.
    pub fn move_to_line_down(&mut self, n: u16, prompt: usize) -> Result<Outcome, Refusal> {
        self.moved(look!(self, tlf_line_move_to_line_down, n, prompt))
    }

    /// To the n-th match.
    pub fn move_to(&mut self, search: CharSearch, n: u16) -> Result<Outcome, Refusal> {
        let (search, ch) = search.codes();
        let answer = look!(self, tlf_line_move_to, search, ch.into(), n);
        self.line = answer.line;
        Handed { ch: Some(ch), ..Handed::default() }.outcome(answer.number)
    }
}
