//! What spoils a call that is lent a kill ring.
use crate::ffi::Ring;
use crate::r#gen::{FOREIGN, Rng, boundary, over};
use crate::ring_calls::Param;
use crate::ring_case::{Case, Damage};
use crate::ring_checks::{KILL, OTHER, YANK};
use crate::ring_checks::{LAST_MODE, LENGTH, Loan, MAX_SLOTS, SLOT};
use crate::ring_lists::{Call, Step};

/// What can be wrong with a lent ring or with the arguments.
#[derive(Clone, Copy)]
enum Fault {
    /// A size over 16, in buffers that may be as large.
    Size,
    /// A buffer that is too short for the size, mostly by a byte.
    Short,
    /// The used length of a slot over 4,096, or another.
    Length,
    /// A count over the size, or another.
    Count,
    /// An index that is not below the count.
    Index,
    /// A last action over 2.
    Action,
    /// A yank's size over 4,096.
    Yanked,
    /// A yank's size without a yank.
    NoYank,
    /// A kill with a size and no slots.
    NoSlots,
    /// Bytes in a slot that are not UTF-8 or are outside the repertoire.
    Text,
    /// A last character of a slot that the used length cuts.
    Cut,
    /// Any bytes past a used length, and any length from the count on: no fault, since nobody looks there.
    Behind,
    /// An argument: a size over 16, a number that names no direction, a text that is not UTF-8 or is outside the
    /// repertoire.
    Argument,
}

#[rustfmt::skip]
const FAULTS: [Fault; 13] = [
    Fault::Size, Fault::Short, Fault::Length, Fault::Count, Fault::Index, Fault::Action, Fault::Yanked, Fault::NoYank,
    Fault::NoSlots, Fault::Text, Fault::Cut, Fault::Behind, Fault::Argument,
];

/// Numbers that are small in 4 bytes.
const WRAPPED: [usize; 3] = [1 << 32, (1 << 32) + 1, (1 << 32) + 2];

/// The call with one to three faults.
pub fn drawn_fault(rng: &mut Rng, case: &Case, mut call: Call) -> Step {
    let mut damages = Vec::new();
    for _ in 0..rng.pick(&[1, 1, 1, 2, 2, 3]) {
        match rng.pick(&FAULTS) {
            Fault::Argument => spoil(rng, &mut call),
            fault => damages.extend(drawn_damage(rng, &case.loan(), fault)),
        }
    }
    Step::Damaged(damages, call)
}

/// An argument that a check refuses, if the call takes one.
fn spoil(rng: &mut Rng, call: &mut Call) {
    let takes = call.entry().takes;
    if takes.is_empty() {
        return;
    }
    let args = &mut call.args;
    match rng.pick(takes) {
        Param::Size => args.size = over(rng, MAX_SLOTS),
        Param::Mode => args.mode = over(rng, LAST_MODE as usize).min(u32::MAX as usize) as u32,
        Param::Text => {
            let any = boundary(rng, &args.text);
            let place = rng.pick(&[0, any, args.text.len()]);
            args.text.splice(place..place, rng.pick(&FOREIGN).iter().copied());
        }
    }
}

/// What a drawn fault does to this ring.
pub fn ring_damage(rng: &mut Rng, case: &Case) -> Vec<Damage> {
    let fault = rng.pick(&FAULTS);
    drawn_damage(rng, &case.loan(), fault)
}

/// What a fault does to this ring: nothing where there is nothing to spoil.
fn drawn_damage(rng: &mut Rng, loan: &Loan, fault: Fault) -> Vec<Damage> {
    let Ring { size, count, .. } = loan.ring;
    if loan.is_oversized() || count > size {
        return vec![];
    }
    let slot = rng.below(count.max(1));
    let used = if count > 0 { loan.used(slot) } else { 0 };
    match fault {
        Fault::Size => {
            let sized = rng.pick(&[MAX_SLOTS + 1, MAX_SLOTS + 1, MAX_SLOTS + 2]);
            let large = [Damage::SlotsSize(sized * SLOT), Damage::LensSize(sized * LENGTH)];
            match rng.below(3) {
                0 => vec![Damage::Size(over(rng, MAX_SLOTS))],
                1 => vec![Damage::Size(rng.pick(&WRAPPED))],
                _ => [vec![Damage::Size(sized)], large.into()].concat(),
            }
        }
        Fault::Short if size > 0 => {
            let (slots, lens) = (size * SLOT - 1, size * LENGTH - 1);
            let (fewer, less) = (rng.below(slots), rng.below(lens));
            let (slots, lens) = (rng.pick(&[slots, slots, fewer, 0]), rng.pick(&[lens, lens, less, 0]));
            vec![if rng.one_in(2) { Damage::SlotsSize(slots) } else { Damage::LensSize(lens) }]
        }
        Fault::Length => {
            let most = SLOT as u16;
            vec![Damage::Length(slot, rng.pick(&[most + 1, most + 1, most + 2, 2 * most, u16::MAX, most, 0]))]
        }
        Fault::Count if rng.one_in(4) => {
            // One slot more than the ring's size, whole and sound.
            let sizes = [Damage::SlotsSize((size + 1) * SLOT), Damage::LensSize((size + 1) * LENGTH)];
            [&sizes[..], &[Damage::Text(size, b"a".into()), Damage::Count(size + 1)]].concat()
        }
        Fault::Count => {
            let more = over(rng, size);
            vec![Damage::Count(rng.pick(&[size + 1, more, count + 1, 0, 1 << 32]))]
        }
        Fault::Index => {
            let more = over(rng, count);
            vec![Damage::Index(rng.pick(&[count.max(1), more, 1 << 32]))]
        }
        Fault::Action => {
            let more = over(rng, OTHER);
            let wrapped = rng.pick(&WRAPPED);
            vec![Damage::Action(rng.pick(&[OTHER + 1, more, wrapped]))]
        }
        Fault::Yanked => {
            let more = over(rng, SLOT);
            vec![Damage::Action(YANK), Damage::Yanked(rng.pick(&[SLOT + 1, more, SLOT, 1 << 16, 1 << 32]))]
        }
        Fault::NoYank => {
            let size = rng.pick(&[1, SLOT, SLOT + 1, 1 << 16, 1 << 32, usize::MAX]);
            vec![Damage::Action(rng.pick(&[KILL, OTHER])), Damage::Yanked(size)]
        }
        Fault::NoSlots => vec![Damage::Action(KILL), Damage::Yanked(0), Damage::Count(0), Damage::Index(0)],
        Fault::Text if used > 0 => {
            let places = slot * SLOT + rng.below(used)..slot * SLOT + used;
            places.zip(rng.pick(&FOREIGN)).map(|(place, &byte)| Damage::SlotsByte(place, byte)).collect()
        }
        Fault::Cut if count > 0 => {
            let text = rng.pick(&["\u{DF}", "a\u{A0}", "-\u{301}"]).as_bytes();
            vec![Damage::Text(slot, text.to_vec()), Damage::Length(slot, text.len() as u16 - 1)]
        }
        Fault::Behind => {
            let at = slot * SLOT + used;
            let mut all: Vec<Damage> =
                (at..(slot + 1) * SLOT).zip(rng.pick(&FOREIGN)).map(|(at, &b)| Damage::SlotsByte(at, b)).collect();
            all.extend((count..size).map(|slot| Damage::Length(slot, rng.next() as u16)));
            all
        }
        _ => vec![],
    }
}
