//! A step of a list of keys, and a difference there, told to a reader.
use std::fmt::Write as _;

use crate::account::{PANIC, by, shown, word};
use crate::checks::first_character;
use crate::ffi::{KeyAnswer, Line};
use crate::key_case::{self, Case, Expected, Left};
use crate::key_lists::{Difference, Step};
use crate::list_account::Tell;
use crate::log_account::{changes, state};
use crate::ring_account;

impl Tell for Step {
    fn told(&self) -> String {
        match self {
            Step::Key(key) => format!("key {}", told_key(key)),
            Step::Damaged(faults, ring, key) => {
                let Line { len, cursor } = faults.line;
                let text = shown(&faults.buffer, usize::MAX);
                let buffer = format!("a text buffer of {} bytes {text}", faults.buffer.len());
                let line = format!("{buffer}, used length {len}, cursor {cursor}, log {:?}", faults.log);
                format!("key {}, with {line}, ring: {}", told_key(key), ring_account::told_damages(ring))
            }
            Step::Line(step) => step.told(),
            Step::Ring(step) => step.told(),
        }
    }

    fn input(&self, case: &Case) -> String {
        let loan = case.line.log.loan();
        let ring = case.ring.loan();
        let Line { len, cursor } = case.line.line();
        let mut out = String::new();
        let _ = writeln!(out, "call       {}", self.told());
        let _ = writeln!(out, "text       {}", shown(case.line.text(), cursor));
        let _ = writeln!(out, "           C {}, used length {len}, cursor {cursor}, shown as |", case.line.size());
        let [records, texts, slots, lens] = [loan.records, loan.texts, ring.slots, ring.lens].map(<[u8]>::len);
        let _ = writeln!(out, "buffers    records {records}, texts {texts}, slots {slots}, lens {lens}");
        let _ = writeln!(out, "log        {}", state(&loan.log));
        let _ = writeln!(out, "           {}", changes(&case.line.log.left(&loan.log), &loan.log));
        let _ = writeln!(out, "ring       {}", ring_account::state(&ring.ring));
        let _ = writeln!(out, "           {}", ring_account::slots(&case.ring.left(&ring.ring)));
        out
    }

    fn told_start([size, records, texts, slots, lens]: [usize; 5]) -> String {
        let buffers = format!("C {size}, records {records}, texts {texts}, slots {slots}, lens {lens}");
        format!("{buffers}, an empty text, an empty log and a ring not yet made")
    }

    fn answers(&self, difference: &Difference) -> String {
        match (self, difference) {
            (Step::Line(step), Difference::Line(difference)) => step.answers(difference),
            (Step::Ring(step), Difference::Ring(difference)) => step.answers(difference),
            (_, Difference::Key(difference)) => answers(difference),
            _ => unreachable!("a difference of the step's own kind"),
        }
    }
}

fn answers(difference: &key_case::Difference) -> String {
    let key_case::Difference { got, left: Left { text, lists, slots }, wrong, expected } = difference;
    let mut out = String::new();
    let _ = writeln!(out, "library    {}", answer(got));
    let _ = writeln!(out, "           text {}", shown(text, got.line.cursor));
    let _ = writeln!(out, "           {}", changes(lists, &got.log));
    let _ = writeln!(out, "           ring: {}; {}", ring_account::state(&got.ring), ring_account::slots(slots));
    let Some(due) = expected else { return out + PANIC };
    for (buffer, place) in wrong.iter().filter(|_| got.number == due.answer.number) {
        let _ = writeln!(out, "           and it left a wrong byte at place {place} of {buffer}");
    }
    out + &told_due(due)
}

fn told_due(Expected { answer: due, text, lists, slots }: &Expected) -> String {
    let mut out = String::new();
    let _ = writeln!(out, "expected   {} ({})", answer(due), by(due.number));
    let _ = match text {
        Some(text) => writeln!(out, "           text {}", shown(text, due.line.cursor)),
        None => writeln!(out, "           and no byte of the text changes"),
    };
    let _ = match lists {
        Some(lists) => writeln!(out, "           {}", changes(lists, &due.log)),
        None => writeln!(out, "           and no byte of the log changes"),
    };
    let ring = ring_account::state(&due.ring);
    let _ = match slots {
        Some(slots) => writeln!(out, "           ring: {ring}; {}", ring_account::slots(slots)),
        None => writeln!(out, "           ring: {ring}, and no byte of its buffers changes"),
    };
    out
}

fn answer(answer: &KeyAnswer) -> String {
    let KeyAnswer { number, from, to, line: Line { len, cursor }, log, .. } = answer;
    let word = word(*number);
    format!("{number} {word}, from {from}, to {to}, used length {len}, cursor {cursor}, log: {}", state(log))
}

/// Bytes of a longer key that are shown.
const SHOWN: usize = 60;

/// A key's bytes as order 1 writes them: ESC, C-x, TAB, LF, CR, SP, characters, and x: with hexadecimal bytes.
fn told_key(key: &[u8]) -> String {
    let mut words = Vec::new();
    let mut rest = &key[..key.len().min(SHOWN)];
    while let Some(&byte) = rest.first() {
        let len = first_character(rest).map_or(1, |(_, len)| len);
        words.push(match byte {
            0x09 => "TAB".into(),
            0x0A => "LF".into(),
            0x0D => "CR".into(),
            0x1B => "ESC".into(),
            0x20 => "SP".into(),
            0x01..=0x1F => format!("C-{}", char::from(byte + 0x40).to_ascii_lowercase()),
            0x21..=0x7E => char::from(byte).into(),
            _ => rest[..len].iter().fold("x:".into(), |word: String, byte| word + &format!("{byte:02X}")),
        });
        rest = &rest[len..];
    }
    if key.len() > SHOWN {
        words.push(format!("({} bytes)", key.len() - SHOWN));
    }
    if words.is_empty() { "(none)".into() } else { words.join(" ") }
}
