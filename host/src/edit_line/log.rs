//! The log: groups, undo and redo. The calls named `log_` record without touching the text, for a caller that keeps a
//! text on its own: what they record may not fit this one, and then undo stops with `Misfit`.
use super::EditLine;
use crate::answers::{found, outcome, Outcome, Refusal};
use crate::causes::Handed;
use crate::ffi;
use std::str;

impl EditLine {
    /// Opens a group. Its mark, for `cancel`.
    pub fn begin(&mut self) -> Result<usize, Refusal> {
        let answer = record!(self, tlf_log_begin);
        outcome(answer.number).map(|_| answer.from)
    }

    /// Closes all open groups. `Nothing` where no change stands in them.
    pub fn end(&mut self) -> Result<Outcome, Refusal> {
        outcome(record!(self, tlf_log_end).number)
    }

    /// Undoes n units, a unit being a record or a closed group; 0 is 1.
    pub fn undo(&mut self, n: u16) -> Result<Outcome, Refusal> {
        outcome(retrace!(self, tlf_log_undo, n).number)
    }

    /// Redoes n units.
    pub fn redo(&mut self, n: u16) -> Result<Outcome, Refusal> {
        outcome(retrace!(self, tlf_log_redo, n).number)
    }

    /// Takes back the open group that was begun with this mark, as if it had never been. `Nothing` where there is none.
    pub fn cancel(&mut self, mark: usize) -> Result<Outcome, Refusal> {
        outcome(retrace!(self, tlf_log_cancel, mark).number)
    }

    /// The text that the newest record, Ends apart, has put in.
    pub fn last_insert(&self) -> Result<Option<&str>, Refusal> {
        let (records, records_len) = (self.records.as_ptr(), self.records.len());
        let (texts, texts_len) = (self.texts.as_ptr(), self.texts.len());
        // SAFETY: two buffers to be read, allocations of their own, each with its length.
        let answer = unsafe { ffi::tlf_log_last_insert(records, records_len, texts, texts_len, self.log) };
        let text = self.texts.get(answer.from..answer.to).unwrap_or_default();
        found(answer.number, str::from_utf8(text).unwrap_or_default())
    }

    /// Records a character, typed at `idx`.
    pub fn log_insert(&mut self, idx: usize, ch: char) -> Result<Outcome, Refusal> {
        let answer = record!(self, tlf_log_insert, idx, ch.into());
        Handed { ch: Some(ch), ..Handed::default() }.outcome(answer.number)
    }

    /// Records a text, put in at `idx`.
    pub fn log_insert_str(&mut self, idx: usize, text: &str) -> Result<Outcome, Refusal> {
        let answer = record!(self, tlf_log_insert_str, idx, text.as_ptr(), text.len());
        Handed { texts: &[text], ..Handed::default() }.outcome(answer.number)
    }

    /// Records a text, cut at `idx`.
    pub fn log_delete(&mut self, idx: usize, text: &str) -> Result<Outcome, Refusal> {
        let answer = record!(self, tlf_log_delete, idx, text.as_ptr(), text.len());
        Handed { texts: &[text], ..Handed::default() }.outcome(answer.number)
    }

    /// Records that one text became another at `idx`.
    pub fn log_replace(&mut self, idx: usize, old: &str, new: &str) -> Result<Outcome, Refusal> {
        let answer = record!(self, tlf_log_replace, idx, old.as_ptr(), old.len(), new.as_ptr(), new.len());
        Handed { texts: &[old, new], ..Handed::default() }.outcome(answer.number)
    }

    /// Keeps the undo list's first `len` records. Text, level and redo list stay: `cancel` takes a group back.
    pub fn log_truncate(&mut self, len: usize) -> Result<Outcome, Refusal> {
        outcome(record!(self, tlf_log_truncate, len).number)
    }
}
