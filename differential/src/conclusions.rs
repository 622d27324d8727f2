//! The conclusions of demand 3, on the library's answers alone: what undo and redo do after a list of calls.
use std::fmt::Write as _;

use crate::account::{shown, word};
use crate::edit_calls::Input;
use crate::edit_case::Case;
use crate::ffi::{Line, Log};
use crate::line_calls::Args;
use crate::log_account::{changes, state};
use crate::log_model::Bytes;
use crate::undo_calls::{ENTRIES, REDO, UNDO, row};

#[derive(Clone, Debug)]
pub enum Conclusion {
    /// Undoing to the end gives the first text: by calls with these counts, over and over.
    ToTheEnd(Vec<u16>),
    /// Undo n, redo n gives back the text and both lists: for this n, or the units there where they are fewer.
    Back(u16),
    /// Undo n, then undo m leaves what undo n + m leaves.
    Sum(u16, u16),
}

/// The calls that were made, and what is wrong after the last.
pub struct Failure {
    pub calls: Vec<String>,
    pub wrong: String,
}

/// Text, cursor and log on their way through undo and redo, and the calls so far.
#[derive(Clone)]
struct State {
    text: Vec<u8>,
    records: Vec<u8>,
    texts: Vec<u8>,
    line: Line,
    log: Log,
    calls: Vec<String>,
}

impl State {
    fn new(case: &Case) -> State {
        let loan = case.log.loan();
        let (records, texts) = (loan.records.to_vec(), loan.texts.to_vec());
        State { text: case.buffer().to_vec(), records, texts, line: case.line(), log: loan.log, calls: Vec::new() }
    }

    /// The used part of the text.
    fn text(&self) -> &[u8] {
        &self.text[..self.line.len.min(self.text.len())]
    }

    /// The used parts of both lists.
    fn lists(&self) -> Bytes {
        let Log { undo, redo, .. } = self.log;
        let used = |buffer: &[u8], undo: usize, redo: usize| {
            let count = undo.saturating_add(redo).min(buffer.len());
            buffer[..count].to_vec()
        };
        Bytes {
            records: used(&self.records, undo.records, redo.records),
            texts: used(&self.texts, undo.texts, redo.texts),
        }
    }

    fn is_at_the_end(&self) -> bool {
        self.log.undo == Default::default()
    }

    /// Whether text and both lists are the same, byte for byte, and the level.
    fn is_same(&self, other: &State) -> bool {
        self.text() == other.text() && self.log == other.log && self.lists() == other.lists()
    }

    /// What is left, for a reader.
    fn told(&self) -> String {
        let text = shown(self.text(), self.line.cursor);
        format!("text {text}, log: {}; {}", state(&self.log), changes(&self.lists(), &self.log))
    }

    fn failure(self, wrong: String) -> Failure {
        Failure { calls: self.calls, wrong }
    }

    /// A call that must not be refused.
    fn call(mut self, name: &str, n: u16) -> Result<State, Failure> {
        let raw = |buffer: &mut Vec<u8>| (buffer.as_mut_ptr(), buffer.len());
        let [text, records, texts] = [&mut self.text, &mut self.records, &mut self.texts].map(raw);
        let input = Input { text, records, texts, line: self.line, log: self.log, buf: (records.0, 0) };
        let answer = unsafe { (ENTRIES[row(name)].ask)(&input, &Args { n, ..Args::default() }) };
        (self.line, self.log) = (answer.line, answer.log);
        self.calls.push(format!("{name} n {n}"));
        match answer.number {
            0 | 1 => Ok(self),
            number => Err(self.failure(format!("it answers {number} {}", word(number)))),
        }
    }

    /// An undo, which takes a record where there is one.
    fn undo(self, n: u16) -> Result<State, Failure> {
        let before = self.log.undo.records;
        let after = self.call(UNDO, n)?;
        if before > 0 && after.log.undo.records >= before {
            return Err(after.failure("it takes no record".into()));
        }
        Ok(after)
    }

    fn redo(self, n: u16) -> Result<State, Failure> {
        self.call(REDO, n)
    }

    /// The undo calls with n = 1 that it takes to empty the undo list.
    fn units(&self) -> Result<u16, Failure> {
        let (mut state, mut units) = (self.clone(), 0);
        while !state.is_at_the_end() {
            state = state.undo(1)?;
            units += 1;
        }
        Ok(units)
    }
}

impl Conclusion {
    /// On a copy of what a list of demand 3 has left, which started with the text `first`.
    pub fn check(&self, first: &[u8], case: &Case) -> Result<(), Failure> {
        let before = State::new(case);
        match self {
            Conclusion::ToTheEnd(counts) => to_the_end(before, counts, first),
            Conclusion::Back(n) => back(before, *n),
            Conclusion::Sum(n, m) => sum(before, *n, *m),
        }
    }
}

fn to_the_end(mut state: State, counts: &[u16], first: &[u8]) -> Result<(), Failure> {
    for &n in counts.iter().cycle() {
        if state.is_at_the_end() {
            break;
        }
        state = state.undo(n)?;
    }
    if state.text() == first {
        return Ok(());
    }
    let wrong = format!("the first text was {}\n           left is {}", shown(first, usize::MAX), state.told());
    Err(state.failure(wrong))
}

fn back(before: State, n: u16) -> Result<(), Failure> {
    let n = n.min(before.units()?);
    if n == 0 {
        return Ok(());
    }
    let after = before.clone().undo(n)?.redo(n)?;
    if after.is_same(&before) {
        return Ok(());
    }
    let wrong = format!("before was {}\n           left is {}", before.told(), after.told());
    Err(after.failure(wrong))
}

fn sum(before: State, n: u16, m: u16) -> Result<(), Failure> {
    let at_once = before.clone().undo(n + m)?;
    let after = before.undo(n)?.undo(m)?;
    if after.is_same(&at_once) && after.line == at_once.line {
        return Ok(());
    }
    let wrong = format!("undo {} leaves {}\n           these leave {}", n + m, at_once.told(), after.told());
    Err(after.failure(wrong))
}

impl Failure {
    pub fn told(&self) -> String {
        let mut out = String::new();
        for call in &self.calls {
            let _ = writeln!(out, "then       {call}");
        }
        let _ = writeln!(out, "wrong      {}", self.wrong);
        out
    }
}
