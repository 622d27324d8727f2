//! Inputs of the calls that are lent a kill ring: drawn rings, and drawn steps on them.
use crate::ffi::Ring;
use crate::r#gen::{Rng, drawn_text};
use crate::ring_calls::{self, Args, RESET, YANK_POP};
use crate::ring_case::{Case, Damage};
use crate::ring_checks::{KILL, OTHER, YANK};
use crate::ring_checks::{LENGTH, MAX_SLOTS, SLOT};
use crate::ring_faults::drawn_fault;
use crate::ring_lists::{Call, Step};

/// Whether the texts of a list have a few bytes, or go to the last byte of a slot.
#[derive(Clone, Copy, PartialEq, Eq)]
pub enum Habit {
    Short,
    Long,
}

/// A length of a text to kill, where the slot has so much room left: a few bytes, or what fills it, a byte less, a byte
/// more. One in a hundred is a small number in its low 2 bytes.
fn drawn_length(rng: &mut Rng, habit: Habit, room: usize) -> usize {
    let few = rng.below(20);
    match habit {
        Habit::Short => rng.pick(&[0, 1, 1, 2, 3, few]),
        Habit::Long if rng.one_in(100) => (1 << 16) + few,
        Habit::Long => {
            let half = SLOT / 2;
            let rest = [room, room, room + 1, room.saturating_sub(1)];
            rng.pick(&[&[0, 1, few, half, half + 1, SLOT - 1, SLOT, SLOT + 1], &rest[..]].concat())
        }
    }
}

/// A text of this length. One long text in four has the same letter over and over: recorded, its line is short.
fn slot_text(rng: &mut Rng, len: usize) -> Vec<u8> {
    if len > 100 && rng.one_in(4) { vec![b'a'; len] } else { drawn_text(rng, len) }
}

pub fn drawn_size(rng: &mut Rng) -> usize {
    let any = 1 + rng.below(MAX_SLOTS);
    rng.pick(&[0, 1, 1, 2, 2, 3, 3, any])
}

/// Buffers for a ring of this size, in bytes: just what it takes, or more.
pub fn drawn_buffers(rng: &mut Rng, size: usize) -> [usize; 2] {
    [size * SLOT + rng.pick(&[0, 0, 0, 1, 100, SLOT]), size * LENGTH + rng.pick(&[0, 0, 0, 1, 2, 20])]
}

pub fn new_ring(size: usize) -> Step {
    Step::Call(Call::new(ring_calls::NEW, Args { size, ..Args::default() }))
}

pub fn kill(text: &[u8], mode: u32) -> Call {
    Call::new(ring_calls::KILL, Args { text: text.into(), mode, ..Args::default() })
}

/// A ring of this size in any state that the checks pass.
pub fn drawn_ring(rng: &mut Rng, size: usize, habit: Habit) -> Vec<Step> {
    let any = rng.below(size + 1);
    let count = rng.pick(&[any, size]);
    let mut set = Vec::new();
    for slot in 0..count {
        let len = drawn_length(rng, habit, SLOT).min(SLOT);
        set.push(Damage::Text(slot, slot_text(rng, len)));
    }
    set.extend([Damage::Count(count), Damage::Index(rng.below(count.max(1)))]);
    set.extend(drawn_action(rng, size, count));
    vec![new_ring(size), Step::Set(set)]
}

/// Any last action that the checks pass; the size of a yank need not be that of a slot.
pub fn drawn_action(rng: &mut Rng, size: usize, count: usize) -> [Damage; 2] {
    let few = rng.below(20);
    let action = rng.pick(&[KILL, YANK, OTHER]);
    let action = if action == KILL && size > 0 && count == 0 { YANK } else { action };
    let yanked = if action == YANK { rng.pick(&[0, 1, few, SLOT - 1, SLOT]) } else { 0 };
    [Damage::Action(action), Damage::Yanked(yanked)]
}

/// A call with fit arguments, save for texts that are too long.
pub fn drawn_call(rng: &mut Rng, case: &Case, habit: Habit) -> Call {
    let loan = case.loan();
    let Ring { size, count, index, action, .. } = loan.ring;
    let is_sound = size <= MAX_SLOTS && count <= size && index < count && !loan.is_oversized();
    let room = if is_sound && action == KILL { SLOT - loan.used(index) } else { SLOT };
    if action == YANK && rng.one_in(2) {
        return Call::new(YANK_POP, Args::default());
    }
    match rng.below(40) {
        0 => Call::new(ring_calls::NEW, Args { size: rng.pick(&[size.min(MAX_SLOTS), MAX_SLOTS]), ..Args::default() }),
        1..=8 => Call::new(RESET, Args::default()),
        9..=15 => Call::new(ring_calls::YANK, Args::default()),
        16..=22 => Call::new(YANK_POP, Args::default()),
        _ => {
            let len = drawn_length(rng, habit, room);
            kill(&slot_text(rng, len), rng.pick(&[0, 1]))
        }
    }
}

/// Mostly a call; one in eight has faults, and one step in twenty sets the index or the last action.
pub fn drawn_step(rng: &mut Rng, case: &Case, habit: Habit) -> Step {
    let Ring { size, count, .. } = case.loan().ring;
    let call = drawn_call(rng, case, habit);
    if rng.one_in(8) {
        return drawn_fault(rng, case, call);
    }
    if rng.one_in(20) && count <= size {
        let index = Damage::Index(rng.below(count.max(1)));
        let action = drawn_action(rng, size, count);
        return Step::Set(if rng.one_in(2) { vec![index] } else { action.into() });
    }
    Step::Call(call)
}
