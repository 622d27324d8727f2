//! A text and a log that are lent from call to call, with the Rust's line and changeset of them; and the comparison of
//! the two.
use std::panic::{AssertUnwindSafe, catch_unwind};

use crate::checks::is_text;
use crate::edit_calls::{Entry, Input};
use crate::edit_checks::{EditInput, edit_call};
use crate::ffi::{EditAnswer, Line, Log, Used};
use crate::lent::Lent;
use crate::line_buffer::LineBuffer;
use crate::line_calls::{self, Args, Param};
use crate::listeners::{Ears, Heard, Witness};
use crate::log_calls::Raw;
use crate::log_case::{self, Damage, raw};
use crate::log_checks::Loan;
use crate::log_model::Bytes;
use crate::oracle;
use crate::record;
use crate::undo::Changeset;

/// What stands in the text's buffer before the first call: no text.
const STALE: u8 = 0x9F;

pub struct Case {
    text: Lent,
    line: Line,
    pub log: log_case::Case,
    /// None where what is lent is no text.
    rust: Option<LineBuffer>,
}

impl Case {
    /// An empty text and an empty log in buffers of these sizes.
    pub fn new([size, records, texts]: [usize; 3]) -> Case {
        let text = vec![STALE; size];
        Case::of(&text, Line { len: 0, cursor: 0 }, log_case::Case::new(records, texts))
    }

    fn of(buffer: &[u8], line: Line, log: log_case::Case) -> Case {
        let text = buffer.get(..line.len).filter(|text| is_text(text));
        let rust = text.map(|text| oracle::line_of(text, 0));
        Case { text: Lent::new(buffer), line, log, rust }
    }

    /// C.
    pub fn size(&self) -> usize {
        self.text.size()
    }

    pub fn line(&self) -> Line {
        self.line
    }

    /// The whole buffer of the text.
    pub fn buffer(&self) -> &[u8] {
        self.text.bytes()
    }

    /// The used part of the text, as far as its buffer reaches.
    pub fn text(&self) -> &[u8] {
        &self.buffer()[..self.line.len.min(self.size())]
    }

    /// Another text, where there is room for it, with its cursor.
    pub fn lay(&mut self, text: &str, cursor: usize) {
        if text.len() <= self.size() && text.is_char_boundary(cursor) {
            self.text.put(0, text.as_bytes());
            self.line = Line { len: text.len(), cursor };
            self.rust = Some(oracle::line_buffer(text, cursor));
        }
    }

    /// Buffers of at least these sizes.
    pub fn grow(&mut self, [size, records, texts]: [usize; 3]) {
        self.text.grow(size, STALE);
        self.log.grow(records, texts);
    }

    /// The Rust's line, with its cursor where the lent one is, and its changeset.
    pub fn rust(&mut self) -> Option<(&mut LineBuffer, &mut Changeset)> {
        let line = self.rust.as_mut()?;
        line.set_pos(self.line.cursor);
        Some((line, self.log.rust_mut()))
    }

    /// What the checks look at.
    pub fn input<'a>(&'a self, uses: &'a [Param], args: &'a Args) -> EditInput<'a> {
        let text = self.rust.as_ref().map(|_| self.text());
        EditInput { size: self.size(), line: self.line, text, loan: self.log.loan(), uses, args }
    }

    /// The answer that refuses a call: line and log as they were, and no byte changes.
    pub fn refused(&self, number: u32) -> Expected {
        let answer = EditAnswer { number, from: 0, to: 0, line: self.line, log: self.log.loan().log };
        Expected { answer, text: None, lists: None }
    }

    /// A copy with another text and with these damages to the log.
    pub fn damaged(&self, buffer: &[u8], line: Line, damages: &[Damage]) -> Case {
        Case::of(buffer, line, self.log.damaged(damages))
    }

    /// The text's buffer as the library takes it.
    pub fn raw(&mut self) -> Raw {
        raw(&mut self.text)
    }

    /// The first place of the text's buffer that is not as it should be: this text, or what was lent where there is
    /// none.
    pub fn wrong(&self, due: Option<&Vec<u8>>) -> (&'static str, Option<isize>) {
        ("text", due.map_or_else(|| self.text.changed(), |due| self.text.differs(due)))
    }

    /// The text as it stands now, with this used length as far as the buffer reaches.
    pub fn left(&self, line: Line) -> Vec<u8> {
        self.text.now()[..line.len.min(self.size())].to_vec()
    }

    /// What stands there now, with these states, is what is lent next.
    pub fn keep(&mut self, line: Line, log: Log) {
        self.line = line;
        self.text.keep();
        self.log.keep(log);
    }

    /// A call that is lent the text alone.
    pub fn go(&mut self, entry: &line_calls::Entry, args: &Args) -> Result<u32, line_calls::Difference> {
        let mut case = line_calls::Case::new(self.buffer(), self.line.len);
        let answer = line_calls::compare(entry, &mut case, self.line.cursor, args)?;
        self.line = answer.line;
        Ok(answer.number)
    }
}

/// The answer that is due, and what is left: the text and both lists in bytes, each of them none where no byte of its
/// buffers may change.
pub struct Expected {
    pub answer: EditAnswer,
    pub text: Option<Vec<u8>>,
    pub lists: Option<Bytes>,
}

/// What the library answered and left, and what it should have: `None` where the Rust panics and no check foresaw it.
pub struct Difference {
    pub got: EditAnswer,
    pub text: Vec<u8>,
    pub lists: Bytes,
    /// The buffers that are not as they should be, each with the first place.
    pub wrong: Vec<(&'static str, isize)>,
    pub expected: Option<Expected>,
}

/// What the Rust's call changes, on a copy of the line.
pub fn heard(entry: &Entry, text: &[u8], cursor: usize, args: &Args) -> Vec<Heard> {
    let mut witness = Witness::default();
    (entry.rust)(&mut oracle::line_of(text, cursor), args, &mut Ears(&mut witness));
    witness.0
}

/// The undo list's used lengths after the call, or the number of the check that fails.
pub fn foreseen(entry: &Entry, case: &Case, args: &Args) -> Result<Used, u32> {
    let uses = entry.uses(args);
    let touched = || oracle::touched(case.text(), case.line.cursor, args);
    edit_call(&case.input(&uses, args), touched, || heard(entry, case.text(), case.line.cursor, args))
}

/// A check's number with line and log as they were, else what the Rust decides.
pub fn expected(entry: &Entry, case: &mut Case, args: &Args) -> Option<Expected> {
    let foreseen = match catch_unwind(AssertUnwindSafe(|| foreseen(entry, case, args))).ok()? {
        Ok(foreseen) => foreseen,
        Err(number) => return Some(case.refused(number)),
    };
    let (rust, changes) = case.rust()?;
    let outcome = catch_unwind(AssertUnwindSafe(|| (entry.rust)(rust, args, &mut Ears(changes)))).ok()?;
    let (from, to) = outcome.unwrap_or((0, 0));
    let (log, lists) = oracle::laid_out(changes);
    // Check 10 looks ahead, so the rules that it goes by must be the Rust's.
    assert!(foreseen == log.undo, "{}: {foreseen:?} foreseen, {log:?}", entry.name);
    let line = Line { len: rust.len(), cursor: rust.pos() };
    let answer = EditAnswer { number: outcome.is_none().into(), from, to, line, log };
    Some(Expected { answer, text: Some(rust.as_bytes().to_vec()), lists: Some(lists) })
}

/// The number that both give, or how they differ.
pub fn compare(entry: &Entry, case: &mut Case, args: &Args) -> Result<u32, Difference> {
    let expected = expected(entry, case, args);
    ask(entry.name, entry.takes, case, args, expected, entry.ask)
}

/// Asks the library: the whole answer counts, every byte of the text and of both lists, and that no guard and no text
/// given has changed.
pub fn ask(
    name: &'static str,
    takes: &[Param],
    case: &mut Case,
    args: &Args,
    expected: Option<Expected>,
    call: unsafe fn(&Input, &Args) -> EditAnswer,
) -> Result<u32, Difference> {
    let mut buf = Lent::new(&args.buf);
    let (line, log) = (case.line, case.log.loan().log);
    let [records, texts] = case.log.raw();
    let input = Input { text: case.raw(), records, texts, line, log, buf: raw(&mut buf) };
    let got = unsafe { call(&input, args) };

    let due = expected.as_ref().and_then(|due| due.text.as_ref());
    let lists = expected.as_ref().and_then(|due| due.lists.as_ref());
    let places = case.log.wrong(lists).into_iter().chain([case.wrong(due), ("buf", buf.changed())]);
    let wrong: Vec<_> = places.filter_map(|(name, place)| Some((name, place?))).collect();
    match expected {
        Some(due) if due.answer == got && wrong.is_empty() => {
            record_call(name, takes, case, args, &due);
            case.keep(got.line, got.log);
            Ok(got.number)
        }
        expected => Err(Difference { text: case.left(got.line), lists: case.log.left(&got.log), got, wrong, expected }),
    }
}

fn record_call(name: &'static str, takes: &[Param], case: &Case, args: &Args, due: &Expected) {
    let Loan { records, texts, log } = case.log.loan();
    let buf = if takes.contains(&Param::Buf) { &args.buf[..] } else { &[] };
    let arguments = takes.iter().filter(|&&param| param != Param::Buf).map(|&param| args.get(param)).collect();
    let (text, line) = (case.buffer(), case.line);
    let lent = record::Lent { text, records, texts, line, log, buf, new: &[], arguments };
    let [records, texts] = record::lists(due.lists.as_ref());
    record::call(name, lent, [due.text.as_deref(), records, texts], &due.answer);
}
