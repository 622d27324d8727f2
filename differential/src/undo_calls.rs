//! Undo, redo and cancel, which are lent a text and a log and do not write to the log: each with its parameters, the
//! numbers that it can give, the library's entry and the Rust's method.
use crate::edit_calls::Input;
use crate::ffi::{self, EditAnswer};
use crate::line_buffer::LineBuffer;
use crate::line_calls::{Args, Param};
use crate::oracle;
use crate::undo::Changeset;
use crate::undo_checks::Way;

pub struct Entry {
    pub name: &'static str,
    pub takes: &'static [Param],
    pub gives: &'static [u32],
    /// What it does with the records that it takes.
    pub way: Way,
    pub ask: unsafe fn(&Input, &Args) -> EditAnswer,
    pub rust: fn(&mut LineBuffer, &mut Changeset, &Args) -> bool,
}

/// The library's entry with what it is lent, then the call's own.
macro_rules! ask {
    ($entry:ident, $own:ident) => {
        |i, a| unsafe {
            let Input { text, records, texts, line, log, .. } = *i;
            ffi::$entry(text.0, text.1, records.0, records.1, texts.0, texts.1, line, log, a.$own)
        }
    };
}

const GIVES: &[u32] = &[0, 1, 2, 4, 5, 6, 8, 9, 12];

pub const UNDO: &str = "tlf_log_undo";
pub const REDO: &str = "tlf_log_redo";
pub const CANCEL: &str = "tlf_log_cancel";

pub static ENTRIES: [Entry; 3] = [
    Entry {
        name: UNDO,
        takes: &[Param::N],
        gives: GIVES,
        way: Way::Undo,
        ask: ask!(tlf_log_undo, n),
        rust: |l, c, a| c.undo(l, a.n),
    },
    Entry {
        name: REDO,
        takes: &[Param::N],
        gives: GIVES,
        way: Way::Redo,
        ask: ask!(tlf_log_redo, n),
        rust: |l, c, a| oracle::redo(l, c, a.n),
    },
    Entry {
        name: CANCEL,
        takes: &[Param::Mark],
        gives: GIVES,
        way: Way::Undo,
        ask: ask!(tlf_log_cancel, mark),
        rust: |l, c, a| oracle::cancel(l, c, a.mark),
    },
];

/// The row of this call.
pub fn row(name: &str) -> usize {
    ENTRIES.iter().position(|entry| entry.name == name).expect(name)
}
