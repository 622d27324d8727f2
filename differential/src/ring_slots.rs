//! The slots, the index and the last action of rustyline's `KillRing`. build.rs puts this module behind the text of
//! kill_ring.rs, inside `kill_ring`, where the private fields are seen.
use super::{Action, KillRing};
use crate::ffi::Ring;
use crate::ring_checks::{KILL, OTHER, YANK};

/// The slots' texts.
pub fn texts(ring: &KillRing) -> &[String] {
    &ring.slots
}

/// The record of a ring: its size is the capacity of the slots.
pub fn record(ring: &KillRing) -> Ring {
    let (action, yanked) = match ring.last_action {
        Action::Kill => (KILL, 0),
        Action::Yank(size) => (YANK, size),
        Action::Other => (OTHER, 0),
    };
    Ring { size: ring.slots.capacity(), count: ring.slots.len(), index: ring.index, action, yanked }
}

/// The ring of a record and texts that document 01's checks pass.
pub fn ring(record: &Ring, texts: &[&str]) -> KillRing {
    let mut ring = KillRing::new(record.size);
    ring.slots.extend(texts.iter().map(|text| text.to_string()));
    ring.index = record.index;
    ring.last_action = match record.action {
        KILL => Action::Kill,
        YANK => Action::Yank(record.yanked),
        OTHER => Action::Other,
        _ => unreachable!("check 8"),
    };
    ring
}
