//! The two lists of rustyline's `Changeset`: copied, and laid out as document 01's log. build.rs puts this module
//! behind the text of undo.rs, inside `undo`, where the private fields are seen.
use super::{Change, Changeset};
use crate::editor::List;
use crate::rustyline::copied_text;

fn copied(change: &Change) -> Change {
    match change {
        Change::Begin => Change::Begin,
        Change::End => Change::End,
        Change::Insert { idx, text } => Change::Insert { idx: *idx, text: copied_text(text) },
        Change::Delete { idx, text } => Change::Delete { idx: *idx, text: copied_text(text) },
        Change::Replace { idx, old, new } => {
            Change::Replace { idx: *idx, old: copied_text(old), new: copied_text(new) }
        }
    }
}

/// The same list with the same room behind it: pushing to a copy costs what pushing to the list costs.
fn copied_list(list: &Vec<Change>) -> Vec<Change> {
    let mut copy = Vec::with_capacity(list.capacity());
    copy.extend(list.iter().map(copied));
    copy
}

pub fn copy(changes: &Changeset) -> Changeset {
    let mut copy = Changeset::new();
    copy.undos = copied_list(&changes.undos);
    copy.redos = copied_list(&changes.redos);
    copy.undo_group_level = changes.undo_group_level;
    copy
}

fn laid_out<'a>(changes: impl Iterator<Item = &'a Change>) -> List {
    let mut list = List::default();
    for change in changes {
        match change {
            Change::Begin => list.push(1, None, &[]),
            Change::End => list.push(2, None, &[]),
            Change::Insert { idx, text } => list.push(3, Some(*idx), &[text]),
            Change::Delete { idx, text } => list.push(4, Some(*idx), &[text]),
            Change::Replace { idx, old, new } => list.push(5, Some(*idx), &[old, new]),
        }
    }
    list
}

/// The undo list, oldest first, and the redo list, next to be redone first: the Rust's redo takes the last.
pub fn lists(changes: &Changeset) -> [List; 2] {
    [laid_out(changes.undos.iter()), laid_out(changes.redos.iter().rev())]
}

pub fn level(changes: &Changeset) -> usize {
    changes.undo_group_level as usize
}
