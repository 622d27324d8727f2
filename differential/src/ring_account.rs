//! A step on a kill ring, and a difference there, told to a reader.
use std::fmt::Write as _;

use crate::account::{PANIC, by, shown, word};
use crate::ffi::{Ring, RingAnswer};
use crate::list_account::{self, Tell};
use crate::ring_calls::{Args, Param};
use crate::ring_case::{Case, Damage, Difference};
use crate::ring_lists::{Call, Step};

const MODES: [&str; 2] = ["Append", "Prepend"];
const ACTIONS: [&str; 3] = ["kill", "yank", "other"];

impl Tell for Step {
    fn told(&self) -> String {
        match self {
            Step::Call(call) => told_call(call),
            Step::Damaged(damages, call) if damages.is_empty() => told_call(call),
            Step::Damaged(damages, call) => format!("{}, with {}", told_call(call), told_damages(damages)),
            Step::Set(damages) => format!("the ring set: {}", told_damages(damages)),
        }
    }

    fn input(&self, case: &Case) -> String {
        let loan = case.loan();
        let mut out = String::new();
        let _ = writeln!(out, "call       {}", self.told());
        let _ = writeln!(out, "buffers    slots {}, lens {}", loan.slots.len(), loan.lens.len());
        let _ = writeln!(out, "ring       {}", state(&loan.ring));
        let _ = writeln!(out, "           {}", slots(&case.left(&loan.ring)));
        out
    }

    fn told_start([slots, lens]: [usize; 2]) -> String {
        format!("slots {slots}, lens {lens}, and a ring not yet made")
    }

    fn answers(&self, difference: &Difference) -> String {
        let Difference { got, ring, texts, wrong, expected } = difference;
        let mut out = String::new();
        let _ = writeln!(out, "library    {}", answer(got));
        let _ = writeln!(out, "           ring: {}", state(ring));
        let _ = writeln!(out, "           {}", slots(texts));
        let Some(due) = expected else { return out + PANIC };
        for (part, place) in wrong.iter().filter(|_| got.number == due.answer.number) {
            let _ = writeln!(out, "           and it left a wrong byte at place {place} of {part}, or around it");
        }
        let _ = writeln!(out, "expected   {} ({})", answer(&due.answer), by(due.answer.number));
        let _ = writeln!(out, "           ring: {}", state(&due.ring));
        let _ = match &due.texts {
            Some(texts) => writeln!(out, "           {}", slots(texts)),
            None => writeln!(out, "           and no byte of the buffers changes"),
        };
        out
    }
}

fn answer(answer: &RingAnswer) -> String {
    let RingAnswer { number, slot, size } = answer;
    format!("{number} {}, slot {slot}, size {size}", word(*number))
}

pub fn state(ring: &Ring) -> String {
    let Ring { size, count, index, action, yanked } = ring;
    format!("size {size}, count {count}, index {index}, last action {}, yanked {yanked}", named(&ACTIONS, *action))
}

pub fn slots(texts: &[Vec<u8>]) -> String {
    let all: Vec<String> = texts.iter().map(|text| format!("{} of {} bytes", brief(text), text.len())).collect();
    if all.is_empty() { "no slots".into() } else { format!("slots: {}", all.join(", ")) }
}

/// A text that is one letter over and over is told by its length.
fn brief(text: &[u8]) -> String {
    match text {
        [first, .., last] if text.len() > 8 && text.iter().all(|byte| byte == first) && first < &0x80 => {
            format!("\"{0}..{0}\"", char::from(*last).escape_default())
        }
        _ => shown(text, usize::MAX),
    }
}

fn told_call(call: &Call) -> String {
    list_account::told_call(call.entry().name, call.entry().takes, |param| value(param, &call.args))
}

fn value(param: Param, args: &Args) -> String {
    match param {
        Param::Size => args.size.to_string(),
        Param::Text => format!("{} of {} bytes", brief(&args.text), args.text.len()),
        Param::Mode => named(&MODES, args.mode as usize),
    }
}

pub fn told_damages(damages: &[Damage]) -> String {
    let one = |damage: &Damage| match damage {
        Damage::Text(slot, text) => format!("slot {slot} {} of {} bytes", brief(text), text.len()),
        Damage::SlotsByte(place, byte) => format!("byte {byte:02X} at place {place} of slots"),
        Damage::Length(slot, length) => format!("used length {length} of slot {slot}"),
        Damage::SlotsSize(size) => format!("slots of {size} bytes"),
        Damage::LensSize(size) => format!("lens of {size} bytes"),
        Damage::Size(size) => format!("size {size}"),
        Damage::Count(count) => format!("count {count}"),
        Damage::Index(index) => format!("index {index}"),
        Damage::Action(action) => format!("last action {}", named(&ACTIONS, *action)),
        Damage::Yanked(size) => format!("yanked {size}"),
    };
    damages.iter().map(one).collect::<Vec<_>>().join(", ")
}

/// A code with its name.
fn named(names: &[&str], code: usize) -> String {
    format!("{code} ({})", names.get(code).unwrap_or(&"none"))
}
