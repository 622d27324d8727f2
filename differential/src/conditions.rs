//! The conditions of demand 3: a list of calls as document 01 has it in "The list of demand 3", no undo and no redo
//! while a group is open, and no group open at the end.
use crate::edit_case::Case;
use crate::edit_lists::{Call, Step, Table};
use crate::ffi::Log;
use crate::log_calls;
use crate::log_lists;
use crate::undo::lists;
use crate::undo_calls;

/// What is known of the steps so far.
pub struct Conditions {
    /// The text that the list started with: none where the steps are no such list.
    first: Option<Vec<u8>>,
    /// The marks of the begins whose groups are open.
    open: Vec<usize>,
}

impl Default for Conditions {
    /// Of no steps: an empty text and an empty log.
    fn default() -> Conditions {
        Conditions { first: Some(Vec::new()), open: Vec::new() }
    }
}

impl Conditions {
    /// The first text, where every condition holds.
    pub fn first_text(&self) -> Option<&[u8]> {
        self.first.as_deref().filter(|_| self.open.is_empty())
    }

    /// The marks of the begins whose groups are open.
    pub fn open(&self) -> &[usize] {
        &self.open
    }

    /// A step that gave this number, if it is a call, and has left this.
    pub fn note(&mut self, step: &Step, number: Option<u32>, case: &Case) {
        match step {
            Step::Call(call) => self.note_call(call, number == Some(0)),
            Step::Log(log_lists::Step::Call(call)) => {
                self.note_log_call(call.entry().name, number.is_some_and(|number| number < 2), case);
            }
            // With an empty log a list starts anew.
            Step::Text(..) if case.log.loan().log == Log::default() => {
                *self = Conditions { first: Some(case.text().to_vec()), open: Vec::new() };
            }
            Step::Text(..) => self.first = None,
            Step::Log(log_lists::Step::Lay(_) | log_lists::Step::Level(_) | log_lists::Step::Seam(_)) => {
                self.first = None;
            }
            // Copies, larger buffers.
            Step::Damaged(..) | Step::Log(log_lists::Step::Damaged(..)) | Step::Grow(_) | Step::Conclude(_) => {}
        }
    }

    /// A key. It counts as its call on the line.
    pub fn note_key(&mut self, undoes: bool) {
        if undoes && !self.open.is_empty() {
            self.first = None;
        }
    }

    fn note_call(&mut self, call: &Call, done: bool) {
        if call.table != Table::Undos {
            return;
        }
        match call.name() {
            undo_calls::CANCEL if done => self.open.retain(|&mark| mark < call.args.mark),
            undo_calls::CANCEL => {}
            _ if !self.open.is_empty() => self.first = None,
            _ => {}
        }
    }

    fn note_log_call(&mut self, name: &str, accepted: bool, case: &Case) {
        match name {
            log_calls::BEGIN if accepted => self.open.push(lists::undo(case.log.rust()).len() - 1),
            log_calls::END if accepted => self.open.clear(),
            log_calls::BEGIN | log_calls::END | log_calls::LAST_INSERT => {}
            _ => self.first = None,
        }
    }
}
