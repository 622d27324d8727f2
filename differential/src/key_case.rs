//! A text, a log and a ring that are lent from key to key, with the Rust's of them; and the comparison of the two.
use std::panic::{AssertUnwindSafe, catch_unwind};

use crate::edit_case::{self, foreseen, heard};
use crate::ffi::{self, EditAnswer, KeyAnswer, Line, Ring};
use crate::key_calls::{Does, KINDS};
use crate::key_checks::{Given, given, refusal};
use crate::key_reading::{Press, read};
use crate::lent::Lent;
use crate::line_calls::{self, Args};
use crate::log_case::raw;
use crate::log_model::Bytes;
use crate::record_keys;
use crate::ring_calls::{self, KILL, RESET, YANK, YANK_POP};
use crate::ring_case;
use crate::ring_checks::ring_call;
use crate::{edit_calls, record, undo_calls, undo_case};

pub struct Case {
    /// Text and log.
    pub line: edit_case::Case,
    pub ring: ring_case::Case,
}

impl Case {
    /// An empty text, an empty log and a ring not yet made, in buffers of these sizes.
    pub fn new([size, records, texts, slots, lens]: [usize; 5]) -> Case {
        Case { line: edit_case::Case::new([size, records, texts]), ring: ring_case::Case::new(slots, lens) }
    }

    /// Everything as it was, with this number, and no byte changes.
    fn untouched(&self, number: u32) -> Expected {
        joined(self.line.refused(number), None, self.ring.loan().ring)
    }

    /// The text's, the log's and the ring's used bytes as they stand now, by the states of an answer.
    fn left(&self, answer: &KeyAnswer) -> Left {
        let lists = self.line.log.left(&answer.log);
        Left { text: self.line.left(answer.line), lists, slots: self.ring.left(&answer.ring) }
    }
}

/// The answer that is due, and what is left: the text, both lists in bytes and the slots' texts, each of them none
/// where no byte of its buffers may change.
pub struct Expected {
    pub answer: KeyAnswer,
    pub text: Option<Vec<u8>>,
    pub lists: Option<Bytes>,
    pub slots: Option<Vec<Vec<u8>>>,
}

/// The used bytes of the buffers.
pub struct Left {
    pub text: Vec<u8>,
    pub lists: Bytes,
    pub slots: Vec<Vec<u8>>,
}

/// What the library answered and left, and what it should have: `None` where the Rust panics and no check foresaw it.
pub struct Difference {
    pub got: KeyAnswer,
    pub left: Left,
    /// The buffers that are not as they should be, each with the first place.
    pub wrong: Vec<(&'static str, isize)>,
    pub expected: Option<Expected>,
}

/// What the line's call leaves and answers, with what the ring's call leaves, or the ring as it was.
fn joined(line: edit_case::Expected, ring: Option<ring_case::Expected>, before: Ring) -> Expected {
    let EditAnswer { number, from, to, line: state, log } = line.answer;
    let (ring, slots) = ring.map_or((before, None), |due| (due.ring, due.texts));
    let answer = KeyAnswer { number, from, to, line: state, log, ring };
    Expected { answer, text: line.text, lists: line.lists, slots }
}

fn line_entry(name: &str) -> &'static line_calls::Entry {
    line_calls::ENTRIES.iter().find(|entry| entry.name == name).expect(name)
}

fn edit_entry(name: &str) -> &'static edit_calls::Entry {
    &edit_calls::ENTRIES[edit_calls::row(name)]
}

fn ring_entry(name: &str) -> &'static ring_calls::Entry {
    &ring_calls::ENTRIES[ring_calls::row(name)]
}

/// A movement: it writes to no buffer.
fn moved(case: &mut Case, name: &str, args: &Args) -> Option<edit_case::Expected> {
    let mut due = case.line.refused(0);
    let (rust, _) = case.line.rust()?;
    let outcome = catch_unwind(AssertUnwindSafe(|| (line_entry(name).rust)(rust, args))).ok()?;
    due.answer.number = outcome.is_none().into();
    due.answer.line = Line { len: rust.len(), cursor: rust.pos() };
    Some(due)
}

/// The ring's call, which no check refuses.
fn ringed(case: &mut Case, name: &str, args: ring_calls::Args) -> Option<ring_case::Expected> {
    ring_case::expected(ring_entry(name), &mut case.ring, &args)
}

/// A cut and the ring's kill of it: each is tried before either is done. A call that cuts nothing leaves the ring.
fn killed(case: &mut Case, name: &str, mode: u32, args: &Args) -> Option<Expected> {
    let entry = edit_entry(name);
    let before = case.ring.loan().ring;
    let (text, cursor) = (case.line.text(), case.line.line().cursor);
    let cut = catch_unwind(AssertUnwindSafe(|| heard(entry, text, cursor, args))).ok()?;
    let tried = foreseen(entry, &case.line, args).err();
    let Some(cut) = cut.into_iter().next() else {
        return edit_case::expected(entry, &mut case.line, args).map(|line| joined(line, None, before));
    };
    let kill = ring_calls::Args { text: cut.call.args.buf, mode, ..ring_calls::Args::default() };
    let full = ring_call(ring_entry(KILL), &case.ring.loan(), &kill);
    if let Some(number) = tried.into_iter().chain(full).min() {
        return Some(case.untouched(number));
    }
    let line = edit_case::expected(entry, &mut case.line, args)?;
    let ring = ringed(case, KILL, kill)?;
    Some(joined(line, Some(ring), before))
}

/// A yank: the line's call is tried before the ring's is done. Where the ring gives no text neither is made.
fn yanked(case: &mut Case, does: Does, given: Option<Given>, mut args: Args) -> Option<Expected> {
    let Some(Given { text, size }) = given else { return Some(case.untouched(1)) };
    (args.buf, args.size) = (text, size);
    let (line, ring) = match does {
        Does::Yank => ("tlf_line_yank", YANK),
        _ => ("tlf_line_yank_pop", YANK_POP),
    };
    let before = case.ring.loan().ring;
    let line = edit_case::expected(edit_entry(line), &mut case.line, &args)?;
    if line.answer.number > 1 {
        return Some(joined(line, None, before));
    }
    let ring = ringed(case, ring, ring_calls::Args::default())?;
    Some(joined(line, Some(ring), before))
}

/// A check's number with everything as it was, else what the Rust decides.
fn expected(case: &mut Case, key: &[u8]) -> Option<Expected> {
    let Press { row, n, ch } = read(key);
    let kind = &KINDS[row];
    let given = given(&case.ring.loan(), kind.does);
    if let Some(number) = refusal(case, key, kind.does, given.as_ref()) {
        return Some(case.untouched(number));
    }
    let args = kind.args(n, ch);
    let before = case.ring.loan().ring;
    let line = match kind.does {
        Does::Move(name) => moved(case, name, &args)?,
        Does::Edit(name) => edit_case::expected(edit_entry(name), &mut case.line, &args)?,
        Does::Undo => {
            let undo = &undo_calls::ENTRIES[undo_calls::row(undo_calls::UNDO)];
            undo_case::expected(undo, &mut case.line, &args)?
        }
        Does::Kill(name, mode) => return killed(case, name, mode, &args),
        Does::Yank | Does::YankPop => return yanked(case, kind.does, given, args),
        Does::Nothing => unreachable!("13"),
    };
    let reset = (line.answer.number < 2).then(|| ringed(case, RESET, ring_calls::Args::default()));
    Some(joined(line, reset.flatten(), before))
}

/// The number that both give, or how they differ: the whole answer counts, every byte of the text, of both lists and
/// of the slots, and that no guard, no byte of the key and no buffer that none of its calls writes has changed.
pub fn compare(case: &mut Case, key: &[u8]) -> Result<u32, Difference> {
    let mut bytes = Lent::new(key);
    let expected = expected(case, key);
    let (line, log, ring) = (case.line.line(), case.line.log.loan().log, case.ring.loan().ring);
    let [text, records, texts] = [[case.line.raw()].as_slice(), &case.line.log.raw()].concat().try_into().unwrap();
    let [slots, lens] = case.ring.raw();
    let key_bytes = raw(&mut bytes);
    let got = unsafe {
        ffi::tlf_line_key(
            text.0,
            text.1,
            records.0,
            records.1,
            texts.0,
            texts.1,
            slots.0,
            slots.1,
            lens.0,
            lens.1,
            line,
            log,
            ring,
            key_bytes.0,
            key_bytes.1,
        )
    };

    let due = expected.as_ref();
    let on_line = [case.line.wrong(due.and_then(|due| due.text.as_ref())), ("key", bytes.changed())];
    let lists = case.line.log.wrong(due.and_then(|due| due.lists.as_ref()));
    let in_ring = case.ring.wrong(due.is_some_and(|due| due.slots.is_some()));
    let places = on_line.into_iter().chain(lists).chain(in_ring);
    let wrong: Vec<_> = places.filter_map(|(name, place)| Some((name, place?))).collect();
    match expected {
        Some(due) if due.answer == got && wrong.is_empty() => {
            record::key(KINDS[read(key).row].name, record_keys::LentKey { case, key }, &due);
            case.line.keep(got.line, got.log);
            case.ring.keep(got.ring);
            Ok(got.number)
        }
        expected => Err(Difference { left: case.left(&got), got, wrong, expected }),
    }
}
