//! A kill ring that is lent from call to call, with the Rust's; and the comparison of the two.
use std::panic::{AssertUnwindSafe, catch_unwind};

use crate::ffi::{Ring, RingAnswer};
use crate::kill_ring::{KillRing, slots};
use crate::lent::Lent;
use crate::log_calls::{Lends, Raw};
use crate::log_case::{raw, stale};
use crate::record;
use crate::ring_calls::{Args, Entry, Input, Param};
use crate::ring_checks::{LENGTH, Loan, SLOT, ring_call};

/// Part of a lent ring set to something else. Bytes beyond a buffer are left out.
#[derive(Clone, Debug)]
pub enum Damage {
    SlotsByte(usize, u8),
    /// A slot's used length.
    Length(usize, u16),
    /// A slot's text, with its used length.
    Text(usize, Vec<u8>),
    SlotsSize(usize),
    LensSize(usize),
    Size(usize),
    Count(usize),
    Index(usize),
    Action(usize),
    Yanked(usize),
}

impl Damage {
    /// The place of its byte, its slot, else what is set.
    pub fn number(&mut self) -> &mut usize {
        match self {
            Damage::SlotsByte(number, _) | Damage::Length(number, _) | Damage::Text(number, _) => number,
            Damage::SlotsSize(number) | Damage::LensSize(number) | Damage::Size(number) => number,
            Damage::Count(number) | Damage::Index(number) | Damage::Action(number) | Damage::Yanked(number) => number,
        }
    }
}

/// The record between guards.
#[repr(C)]
struct LentRing {
    in_front: [usize; GUARDS],
    ring: Ring,
    behind: [usize; GUARDS],
}

const GUARDS: usize = 4;
const GUARD: usize = usize::MAX / 5;

impl LentRing {
    fn new(ring: Ring) -> LentRing {
        LentRing { in_front: [GUARD; GUARDS], ring, behind: [GUARD; GUARDS] }
    }

    fn pointer(&mut self) -> *mut Ring {
        let whole: *mut LentRing = self;
        unsafe { &raw mut (*whole).ring }
    }

    fn guards_changed(&self) -> bool {
        self.in_front != [GUARD; GUARDS] || self.behind != [GUARD; GUARDS]
    }
}

/// What stands in a record before the first call.
const NONE_YET: Ring = Ring { size: GUARD, count: GUARD, index: GUARD, action: GUARD, yanked: GUARD };

pub struct Case {
    slots: Lent,
    lens: Lent,
    ring: LentRing,
    rust: KillRing,
}

impl Case {
    /// Buffers of these sizes and a record that no call has left.
    pub fn new(slots: usize, lens: usize) -> Case {
        let [slots, lens] = [slots, lens].map(|size| Lent::new(&stale(size)));
        Case { slots, lens, ring: LentRing::new(NONE_YET), rust: KillRing::new(0) }
    }

    pub fn loan(&self) -> Loan<'_> {
        Loan { slots: self.slots.bytes(), lens: self.lens.bytes(), ring: self.ring.ring }
    }

    /// Everything that a call is lent.
    pub fn state(&self) -> (Ring, Vec<u8>, Vec<u8>) {
        (self.ring.ring, self.slots.bytes().to_vec(), self.lens.bytes().to_vec())
    }

    /// Both buffers as the library takes them.
    pub fn raw(&mut self) -> [Raw; 2] {
        [&mut self.slots, &mut self.lens].map(raw)
    }

    /// What stands there now, with this record, is what is lent next.
    pub fn keep(&mut self, ring: Ring) {
        self.ring.ring = ring;
        self.slots.keep();
        self.lens.keep();
    }

    /// A copy with these damages. It may still be sound: then the Rust's ring is that of its bytes.
    pub fn damaged(&self, damages: &[Damage]) -> Case {
        let mut all = [self.slots.bytes().to_vec(), self.lens.bytes().to_vec()];
        let mut ring = self.ring.ring;
        for damage in damages {
            let [slots, lens] = &mut all;
            match damage {
                Damage::SlotsByte(place, byte) => put(slots, *place, &[*byte]),
                Damage::Length(slot, length) => put(lens, slot * LENGTH, &length.to_le_bytes()),
                Damage::Text(slot, text) => {
                    put(slots, slot * SLOT, text);
                    put(lens, slot * LENGTH, &(text.len() as u16).to_le_bytes());
                }
                Damage::SlotsSize(size) => slots.resize(*size, BEHIND),
                Damage::LensSize(size) => lens.resize(*size, BEHIND),
                Damage::Size(size) => ring.size = *size,
                Damage::Count(count) => ring.count = *count,
                Damage::Index(index) => ring.index = *index,
                Damage::Action(action) => ring.action = *action,
                Damage::Yanked(size) => ring.yanked = *size,
            }
        }
        let [slots, lens] = &all;
        let loan = Loan { slots, lens, ring };
        let found = if loan.is_oversized() { None } else { loan.texts() };
        let rust = found.map_or_else(|| KillRing::new(0), |texts| slots::ring(&ring, &texts));
        Case { slots: Lent::new(slots), lens: Lent::new(lens), ring: LentRing::new(ring), rust }
    }

    /// The slots' texts as they stand now, by this record and as far as the buffers reach.
    pub fn left(&self, ring: &Ring) -> Vec<Vec<u8>> {
        let loan = Loan { slots: self.slots.now(), lens: self.lens.now(), ring: *ring };
        let slots = (loan.slots.len() / SLOT).min(loan.lens.len() / LENGTH);
        let text = |slot: usize| loan.slots[slot * SLOT..][..loan.used(slot).min(SLOT)].to_vec();
        (0..ring.count.min(slots)).map(text).collect()
    }

    /// The first place of each buffer that is not as it should be: the slots of the Rust's ring with their used
    /// lengths, and what stands behind the last; or what was lent, where a call may not write.
    pub fn wrong(&self, written: bool) -> [(&'static str, Option<isize>); 3] {
        let guards = ("the ring's record", self.ring.guards_changed().then_some(0));
        if !written {
            return [("slots", self.slots.changed()), ("lens", self.lens.changed()), guards];
        }
        let size = slots::record(&self.rust).size;
        let texts = slots::texts(&self.rust);
        let lengths: Vec<[u8; LENGTH]> = texts.iter().map(|text| (text.len() as u16).to_le_bytes()).collect();
        let slots = texts.iter().enumerate().map(|(slot, text)| (slot * SLOT, text.as_bytes()));
        let lens = lengths.iter().enumerate().map(|(slot, length)| (slot * LENGTH, &length[..]));
        let behind = |lent: &'_ Lent, end: usize| (end, lent.bytes()[end..].to_vec());
        let (slots_behind, lens_behind) = (behind(&self.slots, size * SLOT), behind(&self.lens, size * LENGTH));
        [
            ("slots", self.slots.differs_in(slots.chain([(slots_behind.0, &slots_behind.1[..])]))),
            ("lens", self.lens.differs_in(lens.chain([(lens_behind.0, &lens_behind.1[..])]))),
            guards,
        ]
    }
}

/// The byte behind a buffer that has become longer.
const BEHIND: u8 = 0x9F;

fn put(bytes: &mut [u8], place: usize, new: &[u8]) {
    for (place, &byte) in (place..).zip(new) {
        bytes.get_mut(place).into_iter().for_each(|b| *b = byte);
    }
}

/// The answer and the record that are due; the slots' texts, or none where no byte may change.
pub struct Expected {
    pub answer: RingAnswer,
    pub ring: Ring,
    pub texts: Option<Vec<Vec<u8>>>,
}

/// What the library answered and left, and what it should have: `None` where the Rust panics and no check foresaw it.
pub struct Difference {
    pub got: RingAnswer,
    pub ring: Ring,
    pub texts: Vec<Vec<u8>>,
    /// What is not as it should be, each with the first place.
    pub wrong: Vec<(&'static str, isize)>,
    pub expected: Option<Expected>,
}

/// A check's number with the ring as it was, else what the Rust decides.
pub fn expected(entry: &Entry, case: &mut Case, args: &Args) -> Option<Expected> {
    if let Some(number) = ring_call(entry, &case.loan(), args) {
        return Some(Expected { answer: RingAnswer { number, slot: 0, size: 0 }, ring: case.ring.ring, texts: None });
    }
    let rust = &mut case.rust;
    let outcome = catch_unwind(AssertUnwindSafe(|| (entry.rust)(rust, args))).ok()?;
    let (slot, size) = outcome.unwrap_or((0, 0));
    let answer = RingAnswer { number: outcome.is_none().into(), slot, size };
    let texts = || slots::texts(&case.rust).iter().map(|text| text.clone().into_bytes()).collect();
    Some(Expected { answer, ring: slots::record(&case.rust), texts: (entry.lends == Lends::ToWrite).then(texts) })
}

/// The number that both give, or how they differ: the whole answer counts, the record, every used byte of the slots and
/// of their lengths, and that nothing else that was lent has changed, nor a guard. On a refusal nothing at all may have
/// changed.
pub fn compare(entry: &Entry, case: &mut Case, args: &Args) -> Result<u32, Difference> {
    let mut text = Lent::new(&args.text);
    let expected = expected(entry, case, args);
    let [slots, lens] = case.raw();
    let before = case.ring.ring;
    let input = Input { slots, lens, ring: case.ring.pointer(), text: raw(&mut text) };
    let got = unsafe { (entry.ask)(&input, args) };

    let ring = case.ring.ring;
    let written = expected.as_ref().is_some_and(|due| due.texts.is_some());
    let places = case.wrong(written).into_iter().chain([("text", text.changed())]);
    let wrong: Vec<_> = places.filter_map(|(name, place)| Some((name, place?))).collect();
    match expected {
        Some(due) if due.answer == got && due.ring == ring && wrong.is_empty() => {
            record_call(entry, Loan { ring: before, ..case.loan() }, args, &due);
            case.keep(ring);
            Ok(got.number)
        }
        expected => Err(Difference { texts: case.left(&ring), got, ring, wrong, expected }),
    }
}

fn record_call(entry: &Entry, mut loan: Loan, args: &Args, due: &Expected) {
    if entry.lends == Lends::Nothing {
        (loan.slots, loan.lens) = (&[], &[]);
    }
    let mut lent = record::LentRing { loan, text: &[], arguments: Vec::new() };
    for param in entry.takes {
        match param {
            Param::Size => lent.arguments.push(args.size),
            Param::Text => lent.text = &args.text,
            Param::Mode => lent.arguments.push(args.mode as usize),
        }
    }
    record::ring_call(entry.name, lent, due.texts.as_ref(), &due.ring, &due.answer);
}
