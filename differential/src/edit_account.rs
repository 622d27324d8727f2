//! A step on a text and a log, and a difference there, told to a reader.
use std::fmt::Write as _;

use crate::account::{self, PANIC, by, shown, value, word};
use crate::conclusions::Conclusion;
use crate::edit_case::{self, Case};
use crate::edit_lists::{Call, Difference, Step};
use crate::ffi::{EditAnswer, Line};
use crate::list_account::{self, Tell};
use crate::log_account::{self, changes, state};
use crate::undo_calls::CANCEL;

impl Tell for Step {
    fn told(&self) -> String {
        match self {
            Step::Call(call) => told_call(call),
            Step::Damaged(faults, call) => {
                let Line { len, cursor } = faults.line;
                let text = shown(&faults.buffer, usize::MAX);
                let buffer = format!("a text buffer of {} bytes {text}", faults.buffer.len());
                format!("{}, with {buffer}, used length {len}, cursor {cursor}, and {:?}", told_call(call), faults.log)
            }
            Step::Log(step) => step.told(),
            Step::Text(text, cursor) => {
                format!("another text, its cursor shown as |: {}", shown(text.as_bytes(), *cursor))
            }
            Step::Grow([size, records, texts]) => {
                format!("larger buffers: C at least {size}, records {records}, texts {texts}")
            }
            Step::Conclude(conclusion) => format!("demand 3: {}", told_conclusion(conclusion)),
        }
    }

    fn input(&self, case: &Case) -> String {
        let loan = case.log.loan();
        let Line { len, cursor } = case.line();
        let mut out = String::new();
        let _ = writeln!(out, "call       {}", self.told());
        let _ = writeln!(out, "text       {}", shown(case.text(), cursor));
        let _ = writeln!(out, "           C {}, used length {len}, cursor {cursor}, shown as |", case.size());
        let _ = writeln!(out, "buffers    records {}, texts {}", loan.records.len(), loan.texts.len());
        let _ = writeln!(out, "log        {}", state(&loan.log));
        let _ = writeln!(out, "           {}", changes(&case.log.left(&loan.log), &loan.log));
        out
    }

    fn told_start([size, records, texts]: [usize; 3]) -> String {
        format!("C {size}, records {records}, texts {texts}, an empty text and an empty log")
    }

    /// The two answers, or the conclusion that is wrong.
    fn answers(&self, difference: &Difference) -> String {
        match difference {
            Difference::Edit(difference) => answers(difference, is_cancel(self)),
            Difference::Line(difference) => account::answers(difference),
            Difference::Log(difference) => log_account::answers(difference),
            Difference::Conclusion(failure) => failure.told(),
        }
    }
}

/// Cancel is document 01's own.
fn is_cancel(step: &Step) -> bool {
    matches!(step, Step::Call(call) | Step::Damaged(_, call) if call.name() == CANCEL)
}

fn answers(difference: &edit_case::Difference, is_cancel: bool) -> String {
    let edit_case::Difference { got, text, lists, wrong, expected } = difference;
    let mut out = String::new();
    let _ = writeln!(out, "library    {}", answer(got));
    let _ = writeln!(out, "           text {}", shown(text, got.line.cursor));
    let _ = writeln!(out, "           {}", changes(lists, &got.log));
    let Some(due) = expected else { return out + PANIC };
    for (buffer, place) in wrong.iter().filter(|_| got.number == due.answer.number) {
        let _ = writeln!(out, "           and it left a wrong byte at place {place} of {buffer}");
    }
    let by = match due.answer.number {
        0 | 1 if is_cancel => "document 01".into(),
        number => by(number),
    };
    let _ = writeln!(out, "expected   {} ({by})", answer(&due.answer));
    let _ = match &due.text {
        Some(text) => writeln!(out, "           text {}", shown(text, due.answer.line.cursor)),
        None => writeln!(out, "           and no byte of the text changes"),
    };
    let _ = match &due.lists {
        Some(lists) => writeln!(out, "           {}", changes(lists, &due.answer.log)),
        None => writeln!(out, "           and no byte of the log changes"),
    };
    out
}

fn answer(answer: &EditAnswer) -> String {
    let EditAnswer { number, from, to, line: Line { len, cursor }, log } = answer;
    let word = word(*number);
    format!("{number} {word}, from {from}, to {to}, used length {len}, cursor {cursor}, log: {}", state(log))
}

fn told_call(call: &Call) -> String {
    list_account::told_call(call.name(), &call.uses(), |param| value(param, &call.args))
}

fn told_conclusion(conclusion: &Conclusion) -> String {
    match conclusion {
        Conclusion::ToTheEnd(counts) => format!("undoing to the end with n {counts:?}, over and over"),
        Conclusion::Back(n) => format!("undo {n}, redo {n}, or as many as there are units"),
        Conclusion::Sum(n, m) => format!("undo {n}, undo {m}"),
    }
}
