//! The two lists and the group level of rustyline's `Changeset`. build.rs puts this module behind the text of undo.rs,
//! inside `undo`, where the private fields are seen.
use std::mem;

use super::{Change as Own, Changeset};
use crate::log_model::Change;

fn read(change: &Own) -> Change<&str> {
    match change {
        Own::Begin => Change::Begin,
        Own::End => Change::End,
        Own::Insert { idx, text } => Change::Insert(*idx, text),
        Own::Delete { idx, text } => Change::Delete(*idx, text),
        Own::Replace { idx, old, new } => Change::Replace(*idx, old, new),
    }
}

fn own<T: AsRef<str>>(change: &Change<T>) -> Own {
    let text = |text: &T| text.as_ref().to_string();
    match change {
        Change::Begin => Own::Begin,
        Change::End => Own::End,
        Change::Insert(idx, new) => Own::Insert { idx: *idx, text: text(new) },
        Change::Delete(idx, old) => Own::Delete { idx: *idx, text: text(old) },
        Change::Replace(idx, old, new) => Own::Replace { idx: *idx, old: text(old), new: text(new) },
    }
}

/// The undo list, oldest first.
pub fn undo(changes: &Changeset) -> impl DoubleEndedIterator<Item = Change<&str>> + ExactSizeIterator {
    changes.undos.iter().map(read)
}

/// The redo list, next to be redone first: the Rust's redo takes the last.
pub fn redo(changes: &Changeset) -> impl DoubleEndedIterator<Item = Change<&str>> + ExactSizeIterator {
    changes.redos.iter().rev().map(read)
}

pub fn level(changes: &Changeset) -> usize {
    changes.undo_group_level as usize
}

pub fn set_level(changes: &mut Changeset, level: usize) {
    changes.undo_group_level = u32::try_from(level).expect("check 8");
}

/// A changeset of these lists, in the order in which `undo` and `redo` give them.
pub fn changeset(undo: &[Change<&str>], redo: &[Change<&str>], level: usize) -> Changeset {
    let mut changes = Changeset::new();
    changes.undos = undo.iter().map(own).collect();
    changes.redos = redo.iter().rev().map(own).collect();
    set_level(&mut changes, level);
    changes
}

/// Puts a change on top of the undo list and drops the redo list.
pub fn push<T: AsRef<str>>(changes: &mut Changeset, change: &Change<T>) {
    changes.redos.clear();
    changes.undos.push(own(change));
}

/// Moves records across the seam, as the Rust's undo and redo do, until the undo list has `count` or there are no more.
pub fn seam(changes: &mut Changeset, count: usize) {
    while changes.undos.len() > count {
        changes.redos.extend(changes.undos.pop());
    }
    while changes.undos.len() < count && !changes.redos.is_empty() {
        changes.undos.extend(changes.redos.pop());
    }
}

/// The same lists without places and texts, save that each record of a text is still one.
pub fn bare(changes: &Changeset) -> Changeset {
    let bare = |change: &Own| match change {
        Own::Begin => Own::Begin,
        Own::End => Own::End,
        Own::Insert { .. } | Own::Delete { .. } | Own::Replace { .. } => Own::Insert { idx: 0, text: String::new() },
    };
    let mut all = Changeset::new();
    all.undos = changes.undos.iter().map(bare).collect();
    all.redos = changes.redos.iter().map(bare).collect();
    set_level(&mut all, level(changes));
    all
}

/// Does something while the undo list has its newest `count` records alone.
pub fn with_newest<T>(changes: &mut Changeset, count: usize, go: impl FnOnce(&mut Changeset) -> T) -> T {
    let newest = changes.undos.split_off(changes.undos.len() - count);
    let others = mem::replace(&mut changes.undos, newest);
    let outcome = go(changes);
    changes.undos.splice(0..0, others);
    outcome
}

/// Does something while the redo list has the `count` records alone that are next to be redone.
pub fn with_next<T>(changes: &mut Changeset, count: usize, go: impl FnOnce(&mut Changeset) -> T) -> T {
    let next = changes.redos.split_off(changes.redos.len() - count);
    let others = mem::replace(&mut changes.redos, next);
    let outcome = go(changes);
    changes.redos.splice(0..0, others);
    outcome
}

pub fn drop_redo(changes: &mut Changeset) {
    changes.redos.clear();
}
