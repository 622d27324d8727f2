//! The calls that are lent a kill ring: each with its parameters, the numbers that it can give, the library's entry and
//! the Rust's method.
use crate::ffi::{self, Ring, RingAnswer};
use crate::kill_ring::{KillRing, Mode, slots};
use crate::log_calls::{Lends, Raw};
use crate::oracle::{Outcome, done};
use Lends::*;

#[derive(Clone, Copy, Debug, PartialEq, Eq)]
pub enum Param {
    Size,
    Text,
    Mode,
}

/// The arguments of any call: each call takes its own.
#[derive(Clone, Debug, Default)]
pub struct Args {
    pub size: usize,
    pub text: Vec<u8>,
    pub mode: u32,
}

/// What the library is lent: the two buffers, the ring's record, and the text among the arguments.
pub struct Input {
    pub slots: Raw,
    pub lens: Raw,
    pub ring: *mut Ring,
    pub text: Raw,
}

pub struct Entry {
    pub name: &'static str,
    pub takes: &'static [Param],
    pub gives: &'static [u32],
    pub lends: Lends,
    pub ask: unsafe fn(&Input, &Args) -> RingAnswer,
    /// Slot and size of answer 0, or `None` for answer 1.
    pub rust: fn(&mut KillRing, &Args) -> Outcome,
}

pub const NEW: &str = "tlf_ring_new";
pub const RESET: &str = "tlf_ring_reset";
pub const KILL: &str = "tlf_ring_kill";
pub const YANK: &str = "tlf_ring_yank";
pub const YANK_POP: &str = "tlf_ring_yank_pop";

pub static ENTRIES: [Entry; 5] = [
    Entry {
        name: NEW,
        takes: &[Param::Size],
        gives: &[0, 2],
        lends: Nothing,
        ask: |i, a| RingAnswer { number: unsafe { ffi::tlf_ring_new(i.ring, a.size) }, slot: 0, size: 0 },
        rust: |k, a| {
            *k = KillRing::new(a.size);
            done(true)
        },
    },
    Entry {
        name: RESET,
        takes: &[],
        gives: &[0, 2, 8],
        lends: ToRead,
        ask: |i, _| unsafe { ffi::tlf_ring_reset(i.slots.0, i.slots.1, i.lens.0, i.lens.1, i.ring) },
        rust: |k, _| {
            k.reset();
            done(true)
        },
    },
    Entry {
        name: KILL,
        takes: &[Param::Text, Param::Mode],
        gives: &[0, 2, 3, 4, 8, 11],
        lends: ToWrite,
        ask: |i, a| unsafe {
            ffi::tlf_ring_kill(i.slots.0, i.slots.1, i.lens.0, i.lens.1, i.ring, i.text.0, i.text.1, a.mode)
        },
        rust: |k, a| {
            k.kill(std::str::from_utf8(&a.text).expect("check 4"), mode(a.mode));
            done(true)
        },
    },
    Entry {
        name: YANK,
        takes: &[],
        gives: &[0, 1, 2, 8],
        lends: ToRead,
        ask: |i, _| unsafe { ffi::tlf_ring_yank(i.slots.0, i.slots.1, i.lens.0, i.lens.1, i.ring) },
        rust: |k, _| {
            let text = k.yank()?.clone();
            Some((slot_of(k, &text), 0))
        },
    },
    Entry {
        name: YANK_POP,
        takes: &[],
        gives: &[0, 1, 2, 8],
        lends: ToRead,
        ask: |i, _| unsafe { ffi::tlf_ring_yank_pop(i.slots.0, i.slots.1, i.lens.0, i.lens.1, i.ring) },
        rust: |k, _| {
            let (size, text) = k.yank_pop().map(|(size, text)| (size, text.clone()))?;
            Some((slot_of(k, &text), size))
        },
    },
];

/// The row of this call.
pub fn row(name: &str) -> usize {
    ENTRIES.iter().position(|entry| entry.name == name).expect(name)
}

fn mode(code: u32) -> Mode {
    [Mode::Append, Mode::Prepend][code as usize]
}

/// The Rust's yanks answer a text: it is that of the slot at the index.
fn slot_of(ring: &KillRing, text: &str) -> usize {
    let index = slots::record(ring).index;
    assert_eq!(slots::texts(ring)[index], text);
    index
}
