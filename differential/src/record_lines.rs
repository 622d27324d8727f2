//! A recorded answer as a line: what a call is lent, '>', and what it answers and leaves, as the heads of the data files
//! (`record_heads.rs`) say.
use std::fmt::Write as _;

use crate::ffi::{EditAnswer, Line, Log, Ring, RingAnswer};
use crate::ring_checks::{LENGTH, Loan, MAX_SLOTS, SLOT};
use crate::{checks, log_checks};

/// The largest buffer that a program has: calls with larger ones are not recorded.
pub const LARGEST: usize = 65_536;

/// What a call is lent, but for a ring.
#[derive(Default)]
pub struct Lent<'a> {
    pub text: &'a [u8],
    pub records: &'a [u8],
    pub texts: &'a [u8],
    pub line: Line,
    pub log: Log,
    pub buf: &'a [u8],
    pub new: &'a [u8],
    pub arguments: Vec<usize>,
}

impl Lent<'_> {
    /// Whether a used length, a buffer or the level is at its limit, one short of it or one beyond it.
    pub fn is_at_a_limit(&self) -> bool {
        let Log { undo, redo, level } = self.log;
        let at = |limit: usize, number: usize| (limit - 1..=limit + 1).contains(&number);
        at(checks::MAX_TEXT, self.line.len)
            || at(log_checks::MAX_RECORDS, undo.records.saturating_add(redo.records))
            || at(log_checks::MAX_TEXTS, undo.texts.saturating_add(redo.texts))
            || at(log_checks::MAX_LEVEL, level)
            || self.text.len() == checks::MAX_TEXT + 1
            || self.records.len() == log_checks::MAX_RECORDS + 1
            || self.texts.len() == log_checks::MAX_TEXTS + 1
    }

    /// Whether a program has room for the buffers.
    pub fn fits(&self) -> bool {
        [self.text, self.records, self.texts, self.buf, self.new].iter().all(|bytes| bytes.len() <= LARGEST)
    }

    /// The three buffers, each with a space before it and plain bytes behind its used part.
    pub fn buffers(&self) -> String {
        let Log { undo, redo, .. } = self.log;
        let mut out = String::new();
        for (buffer, used) in [
            (self.text, self.line.len),
            (self.records, undo.records.saturating_add(redo.records)),
            (self.texts, undo.texts.saturating_add(redo.texts)),
        ] {
            let _ = write!(out, " {}", hex(&with_plain_behind(buffer, used)));
        }
        out
    }

    /// The line of a call on it, with what is left in the three buffers and the answer.
    pub fn line(&self, name: &str, due: [Option<&[u8]>; 3], answer: &EditAnswer) -> String {
        let mut out = format!("{name}{} {} {}", self.buffers(), hex(self.buf), hex(self.new));
        put_state(&mut out, &self.line, &self.log);
        put_numbers(&mut out, &self.arguments);
        let [text, records, texts] = due.map(left);
        let _ = write!(out, " > {text} {records} {texts} {}", answer.number);
        put_numbers(&mut out, &[answer.from, answer.to]);
        put_state(&mut out, &answer.line, &answer.log);
        out
    }
}

pub fn put_state(out: &mut String, line: &Line, log: &Log) {
    let &Log { undo, redo, level } = log;
    put_numbers(out, &[line.len, line.cursor, undo.records, undo.texts, redo.records, redo.texts, level]);
}

/// The byte that stands for those behind a used part.
const BEHIND: u8 = 0x9F;
/// So many of them are written as they are.
const KEPT_BEHIND: usize = 8;

pub fn with_plain_behind(buffer: &[u8], used: usize) -> Vec<u8> {
    let mut bytes = buffer.to_vec();
    let behind = bytes.get_mut(used..).unwrap_or_default();
    if behind.len() > KEPT_BEHIND {
        behind.fill(BEHIND);
    }
    bytes
}

/// As many equal bytes are written with '*'.
const RUN: usize = 6;

/// Bytes in hexadecimal, as the head of a data file says.
pub fn hex(bytes: &[u8]) -> String {
    if bytes.is_empty() {
        return "-".into();
    }
    let mut out = String::new();
    let mut rest = bytes;
    while let Some(&byte) = rest.first() {
        let run = rest.iter().take_while(|&&b| b == byte).count();
        let count = if run < RUN { 1 } else { run };
        let _ = write!(out, "{byte:02x}");
        rest = &rest[count..];
        if count > 1 {
            let comma = if rest.is_empty() { "" } else { "," };
            let _ = write!(out, "*{count}{comma}");
        }
    }
    out
}

pub fn put_numbers(out: &mut String, numbers: &[usize]) {
    for number in numbers {
        let _ = write!(out, " {number}");
    }
}

/// What is left in a buffer: '=' where no byte of it may change.
pub fn left(due: Option<&[u8]>) -> String {
    due.map_or_else(|| "=".into(), hex)
}

/// What a call is lent of a ring.
pub struct LentRing<'a> {
    pub loan: Loan<'a>,
    pub text: &'a [u8],
    pub arguments: Vec<usize>,
}

impl LentRing<'_> {
    /// Whether the ring has the most slots or one more, or a text the most bytes, one less or one more.
    pub fn is_at_a_limit(&self) -> bool {
        let Loan { slots, lens, ring } = self.loan;
        let at = |length: usize| (SLOT - 1..=SLOT + 1).contains(&length);
        let count = ring.count.min(slots.len() / SLOT).min(lens.len() / LENGTH);
        (MAX_SLOTS..=MAX_SLOTS + 1).contains(&ring.size)
            || at(self.text.len())
            || (0..count).any(|slot| at(self.loan.used(slot)))
    }

    /// Whether a program has room for the buffers.
    pub fn fits(&self) -> bool {
        [self.loan.slots, self.loan.lens, self.text].iter().all(|bytes| bytes.len() <= LARGEST)
    }

    /// Both buffers, with plain bytes past the used length of each slot and from the count on.
    pub fn buffers(&self) -> [Vec<u8>; 2] {
        let Loan { slots, lens, ring } = self.loan;
        let count = ring.count.min(slots.len() / SLOT).min(lens.len() / LENGTH);
        let lens = with_plain_behind(lens, count * LENGTH);
        let mut slots = with_plain_behind(slots, count * SLOT);
        for slot in 0..count {
            let used = self.loan.used(slot);
            slots[slot * SLOT..][..SLOT].get_mut(used..).unwrap_or_default().fill(BEHIND);
        }
        [slots, lens]
    }

    /// The line of a call on it, with the slots' texts and the record that are left, and the answer.
    pub fn line(&self, name: &str, texts: Option<&Vec<Vec<u8>>>, ring: &Ring, answer: &RingAnswer) -> String {
        let [slots, lens] = self.buffers().map(|buffer| hex(&buffer));
        let mut out = format!("{name} {slots} {lens} {}", hex(self.text));
        put_record(&mut out, &self.loan.ring);
        put_numbers(&mut out, &self.arguments);
        let used = texts.map(|texts| texts.concat());
        let length = |text: &Vec<u8>| (text.len() as u16).to_le_bytes();
        let lengths = texts.map(|texts| texts.iter().flat_map(length).collect::<Vec<u8>>());
        let _ = write!(out, " > {} {} {}", left(used.as_deref()), left(lengths.as_deref()), answer.number);
        put_numbers(&mut out, &[answer.slot, answer.size]);
        put_record(&mut out, ring);
        out
    }
}

pub fn put_record(out: &mut String, ring: &Ring) {
    let &Ring { size, count, index, action, yanked } = ring;
    put_numbers(out, &[size, count, index, action, yanked]);
}
