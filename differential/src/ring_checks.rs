//! Document 01's checks 2, 3, 4, 8 and 11 of the calls that are lent a kill ring.
use crate::checks::{MAX_TEXT, is_text};
use crate::ffi::Ring;
use crate::log_calls::Lends;
use crate::ring_calls::{Args, Entry, Param};

/// The last actions.
pub const KILL: usize = 0;
pub const YANK: usize = 1;
pub const OTHER: usize = 2;

pub const MAX_SLOTS: usize = 16;
/// Bytes of a slot, and of its used length.
pub const SLOT: usize = MAX_TEXT;
pub const LENGTH: usize = 2;
/// The directions of a kill.
pub const APPEND: u32 = 0;
pub const PREPEND: u32 = 1;
pub const LAST_MODE: u32 = PREPEND;

/// The two buffers as they are lent, and the ring's record.
#[derive(Clone, Copy)]
pub struct Loan<'a> {
    pub slots: &'a [u8],
    pub lens: &'a [u8],
    pub ring: Ring,
}

impl<'a> Loan<'a> {
    /// The used length of a slot.
    pub fn used(&self, slot: usize) -> usize {
        let at = slot * LENGTH;
        u16::from_le_bytes([self.lens[at], self.lens[at + 1]]).into()
    }

    /// Check 2: a ring over 16 slots, buffers shorter than its size asks, the used length of a slot over 4,096. Slots
    /// from the count on are not looked at, nor what stands behind the last of the ring.
    pub fn is_oversized(&self) -> bool {
        let Ring { size, count, .. } = self.ring;
        size > MAX_SLOTS
            || self.slots.len() < size * SLOT
            || self.lens.len() < size * LENGTH
            || (0..count.min(size)).any(|slot| self.used(slot) > SLOT)
    }

    /// The text of a slot, of a loan that check 2 passes.
    fn text(&self, slot: usize) -> Option<&'a str> {
        let text = &self.slots[slot * SLOT..][..self.used(slot)];
        is_text(text).then(|| std::str::from_utf8(text).expect("check 8"))
    }

    /// Check 8, of a loan that check 2 passes: the slots' texts; none where the ring breaks its layout.
    pub fn texts(&self) -> Option<Vec<&'a str>> {
        let Ring { size, count, index, action, yanked } = self.ring;
        let within = if count == 0 { index == 0 } else { index < count };
        let fits = match action {
            KILL => yanked == 0 && (size == 0 || count > 0),
            YANK => yanked <= SLOT,
            OTHER => yanked == 0,
            _ => false,
        };
        if count > size || !within || !fits {
            return None;
        }
        (0..count).map(|slot| self.text(slot)).collect()
    }

    /// Check 11, of a loan that check 8 passes: the slot that a kill goes to would pass 4,096 bytes. A ring of size 0
    /// has none.
    fn is_full(&self, text: &[u8]) -> bool {
        let Ring { size, index, action, .. } = self.ring;
        let before = if size > 0 && action == KILL { self.used(index) } else { 0 };
        size > 0 && before + text.len() > SLOT
    }
}

/// The number by which the call is refused: the lowest whose check fails.
pub fn ring_call(entry: &Entry, loan: &Loan, args: &Args) -> Option<u32> {
    let takes = |param| entry.takes.contains(&param);
    // 2: a ring over 16 slots.
    if takes(Param::Size) && args.size > MAX_SLOTS {
        return Some(2);
    }
    if entry.lends == Lends::Nothing {
        return None;
    }
    if loan.is_oversized() {
        return Some(2);
    }
    // 3: a number that names no ring direction.
    if takes(Param::Mode) && args.mode > LAST_MODE {
        return Some(3);
    }
    // 4: a text that is not UTF-8 or is outside the repertoire.
    if takes(Param::Text) && !is_text(&args.text) {
        return Some(4);
    }
    if loan.texts().is_none() {
        return Some(8);
    }
    (takes(Param::Text) && loan.is_full(&args.text)).then_some(11)
}
