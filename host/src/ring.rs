//! The kill ring with its buffers.
use crate::answers::{found, outcome, Outcome, Refusal};
use crate::causes::{Handed, Size};
use crate::codes::{Action, Mode};
use crate::ffi::{self, Ring};
use crate::{SLOTS_MAX, TEXT_MAX};
use std::{fmt, str};

/// Texts that were killed, in at most 16 slots of 4,096 bytes.
#[derive(Clone)]
pub struct KillRing {
    slots: Box<[u8]>,
    lens: Box<[u8]>,
    ring: Ring,
}

/// A call that is lent the ring. The two buffers are allocations of their own and `ring` is a field, so none overlaps
/// another and no pointer is null, with length 0 either. A text given is a borrow of its own and lies apart from them.
macro_rules! ring {
    ($self:ident, $call:ident, $pointer:ident $(, $own:expr)*) => {{
        let (slots_len, lens_len) = ($self.slots.len(), $self.lens.len());
        let (slots, lens) = ($self.slots.$pointer(), $self.lens.$pointer());
        // SAFETY: as said above; each length is its buffer's.
        unsafe { ffi::$call(slots, slots_len, lens, lens_len, &mut $self.ring $(, $own)*) }
    }};
}

impl KillRing {
    /// An empty ring; one of size 0 keeps nothing. `Sizes` over 16.
    pub fn new(size: usize) -> Result<KillRing, Refusal> {
        let mut ring = Ring::default();
        // SAFETY: the one pointer is to a value of this function.
        let number = unsafe { ffi::tlf_ring_new(&mut ring, size) };
        Handed { sizes: &[Size::Slots { len: size }], ..Handed::default() }.outcome(number)?;
        Ok(KillRing::with(ring))
    }

    /// The buffers that a ring's size asks for.
    fn with(ring: Ring) -> KillRing {
        let bytes = |each: usize| vec![0; each.saturating_mul(ring.size)].into_boxed_slice();
        KillRing { slots: bytes(TEXT_MAX), lens: bytes(2), ring }
    }

    /// The next kill takes a new slot, and there is no yank to pop.
    pub fn reset(&mut self) -> Result<Outcome, Refusal> {
        outcome(ring!(self, tlf_ring_reset, as_ptr).number)
    }

    /// Keeps a text: after a kill in the same slot, else in the next one.
    pub fn kill(&mut self, text: &str, mode: Mode) -> Result<Outcome, Refusal> {
        let answer = ring!(self, tlf_ring_kill, as_mut_ptr, text.as_ptr(), text.len(), mode as u32);
        Handed { texts: &[text], ..Handed::default() }.outcome(answer.number)
    }

    /// The text of the last kill, or of the slot that `yank_pop` has gone to since.
    pub fn yank(&mut self) -> Result<Option<&str>, Refusal> {
        let answer = ring!(self, tlf_ring_yank, as_ptr);
        found(answer.number, self.slot(answer.slot))
    }

    /// After a yank: its size, and the text of the slot before, to be put in its place.
    pub fn yank_pop(&mut self) -> Result<Option<(usize, &str)>, Refusal> {
        let answer = ring!(self, tlf_ring_yank_pop, as_ptr);
        found(answer.number, (answer.size, self.slot(answer.slot)))
    }

    /// The slots that there may be.
    #[must_use]
    pub fn size(&self) -> usize {
        self.ring.size
    }

    /// The texts of the slots in use.
    pub fn texts(&self) -> impl Iterator<Item = &str> {
        (0..self.ring.count).map(|slot| self.slot(slot))
    }

    /// The slot that `yank` takes; 0 where none is in use.
    #[must_use]
    pub fn index(&self) -> usize {
        self.ring.index
    }

    /// What was last done to it.
    #[must_use]
    pub fn last_action(&self) -> Action {
        match self.ring.action {
            0 => Action::Kill,
            1 => Action::Yank(self.ring.yanked),
            _ => Action::Other,
        }
    }

    /// The text of a slot; empty where there is none.
    fn slot(&self, slot: usize) -> &str {
        let len = self.lens.chunks_exact(2).nth(slot).and_then(|bytes| bytes.first_chunk().copied());
        let len = usize::from(u16::from_le_bytes(len.unwrap_or_default()));
        let text = self.slots.chunks_exact(TEXT_MAX).nth(slot).and_then(|bytes| bytes.get(..len));
        str::from_utf8(text.unwrap_or_default()).unwrap_or_default()
    }

    /// Both buffers, to be written, for a call that takes the record by value; each with its length.
    pub(crate) fn buffers(&mut self) -> [(*mut u8, usize); 2] {
        [&mut self.slots, &mut self.lens].map(|buffer| (buffer.as_mut_ptr(), buffer.len()))
    }

    /// The ring's small record: a yank changes nothing else.
    pub(crate) fn record(&self) -> Ring {
        self.ring
    }

    pub(crate) fn put_back(&mut self, record: Ring) {
        self.ring = record;
    }
}

/// An empty ring of 16 slots.
impl Default for KillRing {
    fn default() -> KillRing {
        let mut ring = Ring::default();
        // SAFETY: the one pointer is to a value of this function. The size is the largest that is taken.
        unsafe { ffi::tlf_ring_new(&mut ring, SLOTS_MAX) };
        KillRing::with(ring)
    }
}

impl fmt::Debug for KillRing {
    fn fmt(&self, f: &mut fmt::Formatter<'_>) -> fmt::Result {
        f.debug_struct("KillRing")
            .field("size", &self.size())
            .field("index", &self.index())
            .field("last_action", &self.last_action())
            .field("texts", &self.texts().collect::<Vec<_>>())
            .finish()
    }
}
