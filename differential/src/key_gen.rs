//! Inputs of keys: drawn keys, and drawn steps with other calls between them.
use crate::edit_gen::{self, another_text, drawn_edit};
use crate::edit_lists::{self, Call, Faults};
use crate::r#gen::{FIRST, FOREIGN, Rng, drawn_text, member};
use crate::key_calls::{Does, ESC, KINDS};
use crate::key_case::Case;
use crate::key_checks::given;
use crate::key_lists::Step;
use crate::key_reading::{Press, read};
use crate::log_lists;
use crate::ring_case::Damage;
use crate::ring_checks::{KILL, YANK};
use crate::ring_faults::ring_damage;
use crate::undo_gen::drawn_undo;
use crate::{log_calls, ring_gen};

/// Counts as they are typed: none, few, with zeros in front, around 65,535, small in 2, 4 or 8 bytes.
#[rustfmt::skip]
const COUNTS: [&str; 20] = [
    "0", "0", "1", "1", "2", "2", "3", "4", "9", "00", "01", "002", "12", "65534", "65535", "65536", "65537", "131073",
    "4294967297", "18446744073709551617",
];

/// ESC and digits.
fn drawn_count(rng: &mut Rng) -> Vec<u8> {
    let mut digits = rng.pick(&COUNTS).to_string();
    match rng.below(40) {
        0 => digits = "9".repeat(1 + rng.below(300)),
        1 => digits = "0".repeat(rng.below(300)) + &digits,
        2 => digits = rng.below(100_000).to_string(),
        _ => {}
    }
    [&[ESC], digits.as_bytes()].concat()
}

/// A character that inserts itself, mostly one that typing merges.
fn drawn_character(rng: &mut Rng) -> Vec<u8> {
    let any = member(rng);
    rng.pick(&['a', 'a', 'b', 'X', '7', ' ', '-', '\n', '\r', '\t', '\u{DF}', '\u{178}', '\u{301}', any])
        .to_string()
        .into_bytes()
}

/// A key without a count.
fn drawn_bound(rng: &mut Rng) -> Vec<u8> {
    match KINDS[rng.below(KINDS.len())].bytes {
        [] => drawn_character(rng),
        bytes => bytes.to_vec(),
    }
}

/// Bytes that are no key, or seldom are one.
fn drawn_broken(rng: &mut Rng) -> Vec<u8> {
    let (count, key, other) = (drawn_count(rng), drawn_bound(rng), drawn_bound(rng));
    let any: Vec<u8> = (0..rng.below(6)).map(|_| rng.next() as u8).collect();
    let foreign = rng.pick(&FOREIGN);
    let control = rng.pick(&[0x00, 0x03, 0x07, 0x08, 0x0C, 0x0E, 0x10, 0x12, 0x1A, 0x1C, 0x1E, 0x7F]);
    match rng.below(18) {
        0 => vec![],
        1 => vec![ESC],
        2 => count,
        3 => [key, other].concat(),
        4 => [count, drawn_count(rng), key].concat(),
        5 => [vec![ESC], key].concat(),
        6 => vec![ESC, rng.next() as u8],
        7 => vec![control],
        8 => [count, vec![control]].concat(),
        9 => any,
        10 => foreign.to_vec(),
        11 => [&key, foreign].concat(),
        12 => [&[ESC], foreign].concat(),
        13 => [&count, foreign].concat(),
        14 => vec![0xC3, control, 0xA9],
        15 => [count, any].concat(),
        16 => vec![ESC, b'B' + rng.below(25) as u8],
        _ => {
            let len = rng.pick(&[2, 30, 5_000]);
            drawn_text(rng, len)
        }
    }
}

/// The most bytes that repeating what the ring gives may give.
const REPEATED: usize = 1 << 20;

/// A key: mostly a bound one, one in three of them with a count; yanks and kills follow each other.
pub fn drawn_key(rng: &mut Rng, case: &Case) -> Vec<u8> {
    let loan = case.ring.loan();
    let key = match loan.ring.action {
        YANK if rng.one_in(3) => b"\x1By".to_vec(),
        KILL if rng.one_in(3) => rng.pick(&[b"\x0B".as_slice(), b"\x15", b"\x17", b"\x1Bd", b"\x19"]).to_vec(),
        _ if rng.one_in(12) => return drawn_broken(rng),
        _ => drawn_bound(rng),
    };
    if !rng.one_in(3) {
        return key;
    }
    let counted = [drawn_count(rng), key.clone()].concat();
    let Press { row, n, .. } = read(&counted);
    let repeats = given(&loan, KINDS[row].does).map_or(0, |given| given.text.len() * usize::from(n));
    if repeats > REPEATED && KINDS[row].does == Does::Yank { key } else { counted }
}

/// The key with one to six faults in text, log or ring.
pub fn damaged(rng: &mut Rng, case: &Case, key: Vec<u8>) -> Step {
    let mut faults = Faults { buffer: case.line.buffer().to_vec(), line: case.line.line(), log: Vec::new() };
    let mut ring: Vec<Damage> = Vec::new();
    let whose = rng.below(4);
    if whose > 0 {
        ring.extend((0..rng.pick(&[1, 1, 2])).flat_map(|_| ring_damage(rng, &case.ring)));
    }
    if whose < 3 {
        let spoilt = edit_gen::damaged(rng, &case.line, Call::undo(0, FIRST));
        if let edit_lists::Step::Damaged(own, _) = spoilt {
            faults = own;
        }
    }
    Step::Damaged(faults, ring, key)
}

/// What a list is made of.
#[derive(Clone, Copy, PartialEq, Eq)]
pub enum Habit {
    /// Every step there is.
    Any,
    /// Keys, edits and groups: a list of demand 3.
    Session,
}

/// A step that goes on from this text, log and ring: mostly a key.
pub fn drawn_step(rng: &mut Rng, case: &Case, habit: Habit, groups: usize) -> Step {
    match (habit, rng.below(40)) {
        (Habit::Any, 0..=1) => Step::Line(another_text(rng, &case.line)),
        (Habit::Any, 2..=3) => Step::Line(edit_gen::drawn_step(rng, &case.line, edit_gen::Habit::Any)),
        (Habit::Any, 4..=5) => Step::Line(edit_lists::Step::Call(drawn_undo(rng, &case.line))),
        (_, 6..=7) => Step::Ring(ring_gen::drawn_step(rng, &case.ring, ring_gen::Habit::Short)),
        (_, 8..=10) => {
            let key = drawn_key(rng, case);
            damaged(rng, case, key)
        }
        (Habit::Session, 0..=1) => begin(),
        (Habit::Session, 2) => Step::Line(crate::session_gen::end()),
        (Habit::Session, 3..=5) => {
            let edit = drawn_edit(rng, &case.line, edit_gen::Habit::Any);
            Step::Line(edit_lists::Step::Call(edit))
        }
        _ => {
            let key = drawn_key(rng, case);
            // Demand 3 has no undo while a group is open.
            let undoes = KINDS[read(&key).row].does == Does::Undo;
            Step::Key(if habit == Habit::Session && undoes && groups > 0 { b"a".to_vec() } else { key })
        }
    }
}

fn begin() -> Step {
    let call = log_lists::Call { row: log_calls::row(log_calls::BEGIN), args: log_calls::Args::default() };
    Step::Line(edit_lists::Step::Log(log_lists::Step::Call(call)))
}
