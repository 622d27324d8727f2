//! Undo, redo and cancel on a lent text and log, and the comparison with the Rust.
use std::panic::{AssertUnwindSafe, catch_unwind};

use crate::edit_case::{self, Case, Difference, Expected};
use crate::edit_checks::lent;
use crate::ffi::{EditAnswer, Line};
use crate::line_buffer::LineBuffer;
use crate::line_calls::Args;
use crate::log_checks::Lists;
use crate::log_model::Change;
use crate::oracle;
use crate::undo::{Changeset, lists};
use crate::undo_calls::Entry;
use crate::undo_checks::{Stop, Way, redone_cursor, stop};

/// How many records the call takes where none is in the way. The Rust tells it, on lists without places and texts.
fn taken(entry: &Entry, changes: &Changeset, args: &Args) -> usize {
    let mut bare = lists::bare(changes);
    let count = |changes: &Changeset| match entry.way {
        Way::Undo => lists::undo(changes).len(),
        Way::Redo => lists::redo(changes).len(),
    };
    let before = count(&bare);
    (entry.rust)(&mut oracle::line_buffer("", 0), &mut bare, args);
    before - count(&bare)
}

/// The first `count` records in the order in which the call meets them.
fn met<'a>(way: Way, lists: Lists<'a>, count: usize) -> Vec<Change<&'a str>> {
    match way {
        Way::Undo => lists.undo.into_iter().rev().take(count).collect(),
        Way::Redo => lists.redo.into_iter().take(count).collect(),
    }
}

/// The call as the Rust does it, on its own lists: its number. Where a record is in the way the Rust is shown those in
/// front of it alone, which are fewer than the call takes.
fn done(entry: &Entry, stop: Option<&Stop>, line: &mut LineBuffer, changes: &mut Changeset, args: &Args) -> u32 {
    let Some(&Stop { handled, number }) = stop else { return (!(entry.rust)(line, changes, args)).into() };
    match entry.way {
        Way::Undo => lists::with_newest(changes, handled, |changes| changes.undo(line, u16::MAX)),
        Way::Redo => lists::with_next(changes, handled, |changes| oracle::redo(line, changes, u16::MAX)),
    };
    number
}

/// A check's number with line and log as they were, else what the Rust decides, as far as a record in the way; for redo
/// with document 01's cursor.
pub fn expected(entry: &Entry, case: &mut Case, args: &Args) -> Option<Expected> {
    let found = lent(&case.input(entry.takes, args), Vec::new);
    let found = match found {
        Ok(found) => found,
        Err(number) => return Some(case.refused(number)),
    };
    let records = met(entry.way, found, taken(entry, case.log.rust(), args));
    let stop = stop(entry.way, case.text(), case.size(), &records);
    let handled = stop.as_ref().map_or(records.len(), |stop| stop.handled);
    let cursor = match entry.way {
        Way::Undo => None,
        Way::Redo => Some(redone_cursor(&records[..handled]).unwrap_or(case.line().cursor)),
    };

    let (line, changes) = case.rust()?;
    let number = catch_unwind(AssertUnwindSafe(|| done(entry, stop.as_ref(), line, changes, args))).ok()?;
    let text = line.as_bytes().to_vec();
    let left = Line { len: text.len(), cursor: cursor.unwrap_or(line.pos()) };
    let (log, lists) = oracle::laid_out(changes);
    let answer = EditAnswer { number, from: 0, to: 0, line: left, log };
    let loan = case.log.loan();
    let kept = loan.records.starts_with(&lists.records) && loan.texts.starts_with(&lists.texts);
    assert!(kept, "{}: the Rust's lists are still those of the lent bytes", entry.name);
    // A refusal before any record changes nothing.
    let text = (number < 2 || handled > 0).then_some(text);
    Some(Expected { answer, text, lists: None })
}

/// The number that both give, or how they differ. No byte of the log may change.
pub fn compare(entry: &Entry, case: &mut Case, args: &Args) -> Result<u32, Difference> {
    let expected = expected(entry, case, args);
    edit_case::ask(entry.name, entry.takes, case, args, expected, entry.ask)
}
