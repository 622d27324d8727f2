//! A step on a log, and a difference there, told to a reader.
use std::fmt::Write as _;

use crate::account::{PANIC, by, shown, word};
use crate::ffi::{Log, LogAnswer};
use crate::list_account::{self, Tell, folded};
use crate::log_calls::{Args, Param};
use crate::log_case::{Case, Difference};
use crate::log_lists::{Call, Step};
use crate::log_model::{Bytes, Change, list};

/// Records of a longer list that are shown.
const SHOWN: usize = 40;

impl Tell for Step {
    fn told(&self) -> String {
        match self {
            Step::Call(call) => told_call(call),
            Step::Damaged(damages, call) => format!("{}, with {damages:?}", told_call(call)),
            Step::Lay(change) => format!("a record laid on the undo list: {}", told_change(change)),
            Step::Level(level) => format!("the level set to {level}"),
            Step::Seam(count) => format!("the seam moved, {count} records in front of it"),
        }
    }

    fn input(&self, case: &Case) -> String {
        let loan = case.loan();
        let mut out = String::new();
        let _ = writeln!(out, "call       {}", self.told());
        let _ = writeln!(out, "buffers    records {}, texts {}", loan.records.len(), loan.texts.len());
        let _ = writeln!(out, "log        {}", state(&loan.log));
        let _ = writeln!(out, "           {}", changes(&case.left(&loan.log), &loan.log));
        out
    }

    fn told_start([records, texts]: [usize; 2]) -> String {
        format!("records {records}, texts {texts}, and an empty log")
    }

    fn answers(&self, difference: &Difference) -> String {
        answers(difference)
    }
}

/// The two answers.
pub fn answers(difference: &Difference) -> String {
    let mut out = String::new();
    let _ = writeln!(out, "library    {}", answer(&difference.got));
    let _ = writeln!(out, "           {}", changes(&difference.left, &difference.got.log));
    let Some(due) = &difference.expected else { return out + PANIC };
    for (buffer, place) in difference.wrong.iter().filter(|_| difference.got.number == due.answer.number) {
        let _ = writeln!(out, "           and it left a wrong byte at place {place} of {buffer}");
    }
    let _ = writeln!(out, "expected   {} ({})", answer(&due.answer), by(due.answer.number));
    let _ = match &due.lists {
        Some(lists) => writeln!(out, "           {}", changes(lists, &due.answer.log)),
        None => writeln!(out, "           and no byte of the buffers changes"),
    };
    out
}

fn told_call(call: &Call) -> String {
    list_account::told_call(call.entry().name, call.entry().takes, |param| value(param, &call.args))
}

fn value(param: Param, args: &Args) -> String {
    match param {
        Param::Idx => args.idx.to_string(),
        Param::Len => args.len.to_string(),
        Param::Ch => format!("U+{:04X}", args.ch),
        Param::Buf => shown(&args.buf, usize::MAX),
        Param::Old => shown(&args.old, usize::MAX),
        Param::New => shown(&args.new, usize::MAX),
    }
}

fn told_change<T: AsRef<str>>(change: &Change<T>) -> String {
    let text = |text: &T| shown(text.as_ref().as_bytes(), usize::MAX);
    match change {
        Change::Begin => "Begin".into(),
        Change::End => "End".into(),
        Change::Insert(place, new) => format!("Insert {place} {}", text(new)),
        Change::Delete(place, old) => format!("Delete {place} {}", text(old)),
        Change::Replace(place, old, new) => format!("Replace {place} {} {}", text(old), text(new)),
    }
}

fn answer(answer: &LogAnswer) -> String {
    let LogAnswer { number, from, to, log } = answer;
    format!("{number} {}, from {from}, to {to}, {}", word(*number), state(log))
}

pub fn state(log: &Log) -> String {
    let Log { undo, redo, level } = log;
    let used = format!("undo {} and {}, redo {} and {}", undo.records, undo.texts, redo.records, redo.texts);
    format!("used lengths {used}, level {level}")
}

/// Both lists as changes, where they are some; else their bytes.
pub fn changes(bytes: &Bytes, log: &Log) -> String {
    let whole = || {
        let (undo, redo) = bytes.records.split_at_checked(log.undo.records)?;
        let (undo_texts, redo_texts) = bytes.texts.split_at_checked(log.undo.texts)?;
        Some(format!("undo list: {}; redo list: {}", told_list(undo, undo_texts)?, told_list(redo, redo_texts)?))
    };
    whole().unwrap_or_else(|| {
        let records: Vec<String> = bytes.records.iter().take(2 * SHOWN).map(|byte| format!("{byte:02X}")).collect();
        format!("records {}; texts {}", records.join(" "), shown(&bytes.texts, usize::MAX))
    })
}

/// The newest changes of a list; none where it is damaged.
fn told_list(records: &[u8], texts: &[u8]) -> Option<String> {
    let all = folded(list(records, texts)?.iter().map(told_change));
    let times = |(change, count): &(String, usize)| match count {
        1 => change.clone(),
        _ => format!("{count} times {change}"),
    };
    let hidden = all.len().saturating_sub(SHOWN);
    let mut told: Vec<String> = all[hidden..].iter().map(times).collect();
    if hidden > 0 {
        told.insert(0, "and before that others".into());
    }
    Some(if told.is_empty() { "empty".into() } else { told.join(", ") })
}
