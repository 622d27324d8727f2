//! The slots of rustyline's `KillRing`, and a copy of it. build.rs puts this module behind the text of kill_ring.rs,
//! inside `kill_ring`, where the private fields are seen.
use super::KillRing;
use crate::rustyline::copied_text;

pub fn texts(ring: &KillRing) -> &[String] {
    &ring.slots
}

/// The same ring: its size is the capacity of the slots.
pub fn copy(ring: &KillRing) -> KillRing {
    let mut copy = KillRing::new(ring.slots.capacity());
    copy.slots.extend(ring.slots.iter().map(copied_text));
    copy.index = ring.index;
    copy.last_action = ring.last_action;
    copy
}
