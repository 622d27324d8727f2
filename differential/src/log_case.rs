//! A log that is lent from call to call, with the Rust's changeset of it; and the comparison of the two.
use std::panic::{AssertUnwindSafe, catch_unwind};

use crate::ffi::{Log, LogAnswer, Used};
use crate::lent::Lent;
use crate::log_calls::{Args, Entry, Input, Lends, Param, Raw};
use crate::log_checks::{self, Loan};
use crate::log_model::{Bytes, Change};
use crate::oracle;
use crate::record;
use crate::undo::{Changeset, lists};

/// What stands in a buffer before the first call, over and over: neither a text nor a list.
const STALE: [u8; 5] = [0x9F, 0x03, 0xC3, 0x01, 0xFF];

/// A buffer of this size before the first call.
pub fn stale(size: usize) -> Vec<u8> {
    STALE.iter().copied().cycle().take(size).collect()
}

/// A byte, the size of a buffer, a used length or the level set to something else.
#[derive(Clone, Copy, Debug)]
pub enum Damage {
    RecordsByte(usize, u8),
    TextsByte(usize, u8),
    RecordsSize(usize),
    TextsSize(usize),
    UndoRecords(usize),
    UndoTexts(usize),
    RedoRecords(usize),
    RedoTexts(usize),
    Level(usize),
}

impl Damage {
    /// The place of its byte, else what is set.
    pub fn number(&mut self) -> &mut usize {
        match self {
            Damage::RecordsByte(number, _) | Damage::TextsByte(number, _) => number,
            Damage::RecordsSize(number) | Damage::TextsSize(number) | Damage::Level(number) => number,
            Damage::UndoRecords(number) | Damage::UndoTexts(number) => number,
            Damage::RedoRecords(number) | Damage::RedoTexts(number) => number,
        }
    }
}

fn set(bytes: &mut [u8], place: usize, byte: u8) {
    bytes.get_mut(place).into_iter().for_each(|b| *b = byte);
}

/// A lent buffer as the library takes it.
pub fn raw(lent: &mut Lent) -> Raw {
    (lent.pointer(), lent.size())
}

/// A log that is lent from call to call, and the Rust's changeset of it.
pub struct Case {
    records: Lent,
    texts: Lent,
    log: Log,
    rust: Changeset,
}

impl Case {
    /// An empty log in buffers of these sizes.
    pub fn new(records: usize, texts: usize) -> Case {
        let (records, texts) = (Lent::new(&stale(records)), Lent::new(&stale(texts)));
        Case { records, texts, log: Log::default(), rust: Changeset::new() }
    }

    pub fn loan(&self) -> Loan<'_> {
        Loan { records: self.records.bytes(), texts: self.texts.bytes(), log: self.log }
    }

    pub fn rust(&self) -> &Changeset {
        &self.rust
    }

    pub fn rust_mut(&mut self) -> &mut Changeset {
        &mut self.rust
    }

    /// Both buffers as the library takes them.
    pub fn raw(&mut self) -> [Raw; 2] {
        [&mut self.records, &mut self.texts].map(raw)
    }

    /// The first place of each buffer that is not as it should be: these lists, or what was lent where there are none.
    pub fn wrong(&self, due: Option<&Bytes>) -> [(&'static str, Option<isize>); 2] {
        let wrong_in = |lent: &Lent, due: Option<&Vec<u8>>| due.map_or_else(|| lent.changed(), |due| lent.differs(due));
        [
            ("records", wrong_in(&self.records, due.map(|lists| &lists.records))),
            ("texts", wrong_in(&self.texts, due.map(|lists| &lists.texts))),
        ]
    }

    /// What stands there now, with this state, is what is lent next.
    pub fn keep(&mut self, log: Log) {
        self.log = log;
        self.records.keep();
        self.texts.keep();
    }

    /// Puts a record on top of the undo list, if there is room: any record, as no call may leave it. The redo list is
    /// dropped.
    pub fn lay(&mut self, change: &Change<String>) {
        let mut bytes = Bytes::default();
        bytes.push(change);
        let (undo, more) = (self.log.undo, bytes.used());
        let sum = Used { records: undo.records + more.records, texts: undo.texts + more.texts };
        if sum.records > self.records.size() || sum.texts > self.texts.size() {
            return;
        }
        self.records.put(undo.records, &bytes.records);
        self.texts.put(undo.texts, &bytes.texts);
        self.log = Log { undo: sum, redo: Used::default(), ..self.log };
        lists::push(&mut self.rust, change);
    }

    /// Buffers of at least these sizes.
    pub fn grow(&mut self, records: usize, texts: usize) {
        self.records.grow(records, STALE[0]);
        self.texts.grow(texts, STALE[0]);
    }

    pub fn set_level(&mut self, level: usize) {
        self.log.level = level;
        lists::set_level(&mut self.rust, level);
    }

    /// Moves the seam behind this many records, or behind the last. No byte changes.
    pub fn move_seam(&mut self, count: usize) {
        lists::seam(&mut self.rust, count);
        self.log = oracle::laid_out(&self.rust).0;
    }

    /// A copy with these damages. It may still be sound: then the Rust's changeset is that of its bytes.
    pub fn damaged(&self, damages: &[Damage]) -> Case {
        let mut records = self.records.bytes().to_vec();
        let mut texts = self.texts.bytes().to_vec();
        let mut log = self.log;
        for &damage in damages {
            match damage {
                Damage::RecordsByte(place, byte) => set(&mut records, place, byte),
                Damage::TextsByte(place, byte) => set(&mut texts, place, byte),
                Damage::RecordsSize(size) => records.resize(size, STALE[0]),
                Damage::TextsSize(size) => texts.resize(size, STALE[0]),
                Damage::UndoRecords(used) => log.undo.records = used,
                Damage::UndoTexts(used) => log.undo.texts = used,
                Damage::RedoRecords(used) => log.redo.records = used,
                Damage::RedoTexts(used) => log.redo.texts = used,
                Damage::Level(level) => log.level = level,
            }
        }
        let loan = Loan { records: &records, texts: &texts, log };
        let found = if loan.is_oversized() { None } else { loan.lists() };
        let rust = found.map_or_else(Changeset::new, |l| lists::changeset(&l.undo, &l.redo, log.level));
        Case { records: Lent::new(&records), texts: Lent::new(&texts), log, rust }
    }

    /// The used parts of both buffers as they stand now, with these used lengths as far as the buffers reach.
    pub fn left(&self, log: &Log) -> Bytes {
        let used = |lent: &Lent, undo: usize, redo: usize| {
            let count = undo.saturating_add(redo).min(lent.size());
            lent.now()[..count].to_vec()
        };
        Bytes {
            records: used(&self.records, log.undo.records, log.redo.records),
            texts: used(&self.texts, log.undo.texts, log.redo.texts),
        }
    }
}

/// The answer that is due, and both lists in bytes; no lists where no byte may change.
pub struct Expected {
    pub answer: LogAnswer,
    pub lists: Option<Bytes>,
}

/// What the library answered and left, and what it should have: `None` where the Rust panics and no check foresaw it.
pub struct Difference {
    pub got: LogAnswer,
    pub left: Bytes,
    /// The buffers that are not as they should be, each with the first place.
    pub wrong: Vec<(&'static str, isize)>,
    pub expected: Option<Expected>,
}

/// A check's number with the log as it was, else what the Rust decides.
fn expected(entry: &Entry, case: &mut Case, args: &Args) -> Option<Expected> {
    let lent = (entry.lends != Lends::Nothing).then(|| log_checks::log_call(entry, &case.loan(), args));
    let foreseen = match lent.transpose() {
        Ok(foreseen) => foreseen,
        Err(number) => {
            return Some(Expected { answer: LogAnswer { number, from: 0, to: 0, log: case.log }, lists: None });
        }
    };
    let rust = &mut case.rust;
    let outcome = catch_unwind(AssertUnwindSafe(|| (entry.rust)(rust, args))).ok()?;
    let (from, to) = outcome.unwrap_or((0, 0));
    let (log, lists) = oracle::laid_out(&case.rust);
    // Check 10 looks ahead, so the rules that it goes by must be the Rust's.
    assert!(foreseen.is_none_or(|undo| undo == log.undo), "{}: {foreseen:?} foreseen, {log:?}", entry.name);
    let answer = LogAnswer { number: outcome.is_none().into(), from, to, log };
    Some(Expected { answer, lists: (entry.lends == Lends::ToWrite).then_some(lists) })
}

/// The number that both give, or how they differ: the whole answer counts, every byte of both lists, and that no other
/// buffer and no guard has changed. On a refusal no byte at all may have changed.
pub fn compare(entry: &Entry, case: &mut Case, args: &Args) -> Result<u32, Difference> {
    let mut given = [&args.buf, &args.old, &args.new].map(|text| Lent::new(text));
    let expected = expected(entry, case, args);
    let [buf, old, new] = given.each_mut().map(raw);
    let [records, texts] = case.raw();
    let input = Input { records, texts, log: case.log, buf, old, new };
    let got = unsafe { (entry.ask)(&input, args) };

    let due = expected.as_ref().and_then(|expected| expected.lists.as_ref());
    let given = ["buf", "old", "new"].into_iter().zip(given.iter().map(Lent::changed));
    let places = case.wrong(due).into_iter().chain(given);
    let wrong: Vec<_> = places.filter_map(|(name, place)| Some((name, place?))).collect();
    match expected {
        Some(due) if due.answer == got && wrong.is_empty() => {
            record_call(entry, case, args, &due);
            case.keep(got.log);
            Ok(got.number)
        }
        expected => Err(Difference { left: case.left(&got.log), got, wrong, expected }),
    }
}

fn record_call(entry: &Entry, case: &Case, args: &Args, due: &Expected) {
    let mut lent = record::Lent::default();
    if entry.lends != Lends::Nothing {
        (lent.records, lent.texts, lent.log) = (case.records.bytes(), case.texts.bytes(), case.log);
    }
    for param in entry.takes {
        match param {
            Param::Buf => lent.buf = &args.buf,
            Param::Old => lent.buf = &args.old,
            Param::New => lent.new = &args.new,
            Param::Idx => lent.arguments.push(args.idx),
            Param::Ch => lent.arguments.push(args.ch as usize),
            Param::Len => lent.arguments.push(args.len),
        }
    }
    record::log_call(entry.name, lent, due.lists.as_ref(), &due.answer);
}
