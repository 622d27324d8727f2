//! Document 01's checks 12 and 9 at each record that undo, redo or cancel meets; and redo's cursor.
use crate::checks::splits;
use crate::log_model::Change;

/// What is done with a record.
#[derive(Clone, Copy, PartialEq, Eq)]
pub enum Way {
    /// Undo and cancel.
    Undo,
    Redo,
}

/// What that does to the text: so many bytes at a place go, and a text comes.
struct Rewrite<'a> {
    place: usize,
    goes: usize,
    comes: &'a str,
}

impl Way {
    /// None for Begin and End.
    fn rewrite<'a>(self, change: &Change<&'a str>) -> Option<Rewrite<'a>> {
        let (place, old, new) = match *change {
            Change::Begin | Change::End => return None,
            Change::Insert(place, text) => (place, "", text),
            Change::Delete(place, text) => (place, text, ""),
            Change::Replace(place, old, new) => (place, old, new),
        };
        Some(match self {
            Way::Undo => Rewrite { place, goes: new.len(), comes: old },
            Way::Redo => Rewrite { place, goes: old.len(), comes: new },
        })
    }
}

/// A call that is stopped: the records handled before the one in the way, and the number of the check that fails there.
pub struct Stop {
    pub handled: usize,
    pub number: u32,
}

/// Where a call is stopped that takes these records one after the other, with a text of so many bytes at most.
pub fn stop(way: Way, text: &[u8], size: usize, records: &[Change<&str>]) -> Option<Stop> {
    let mut text = text.to_vec();
    for (handled, change) in records.iter().enumerate() {
        let Some(Rewrite { place, goes, comes }) = way.rewrite(change) else { continue };
        let end = place + goes;
        // 12: a range that leaves the text or cuts a character.
        if end > text.len() || splits(&text, place) || splits(&text, end) {
            return Some(Stop { handled, number: 12 });
        }
        // 9: the text afterwards would be longer than C.
        if text.len() - goes + comes.len() > size {
            return Some(Stop { handled, number: 9 });
        }
        text.splice(place..end, comes.bytes());
    }
    None
}

/// Redo's cursor after these records: after the text that the last of them put in, or at the place of its cut.
pub fn redone_cursor(records: &[Change<&str>]) -> Option<usize> {
    let Rewrite { place, comes, .. } = records.iter().rev().find_map(|change| Way::Redo.rewrite(change))?;
    Some(place + comes.len())
}
