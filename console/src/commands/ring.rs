//! The calls of the ring.
use super::{call, Command};
use crate::answers::{found, outcome};
use crate::params::{MODE, SIZE, TEXT};
use crate::show::quoted;
use tulofewa::{KillRing, Outcome};

pub const COMMANDS: &[Command] = &[
    call("ring_new", &[SIZE], "an empty ring of size slots", |l, a| {
        outcome(KillRing::new(a.size).map(|ring| {
            *l.ring_mut() = ring;
            Outcome::Done
        }))
    }),
    call("ring_reset", &[], "the next kill takes a new slot, and there is no yank to pop", |l, _| {
        outcome(l.ring_mut().reset())
    }),
    call("ring_kill", &[TEXT, MODE], "keeps a text: after a kill in the same slot, else in the next", |l, a| {
        outcome(l.ring_mut().kill(&a.text, a.mode))
    }),
    call("ring_yank", &[], "the text of the last kill", |l, _| found(l.ring_mut().yank(), quoted)),
    call("ring_yank_pop", &[], "after a yank its size, and the text of the slot before", |l, _| {
        found(l.ring_mut().yank_pop(), |(size, text)| format!("size {size}, {}", quoted(text)))
    }),
];
