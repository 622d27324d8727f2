//! What spoils a call that is lent a log.
use crate::ffi::{Log, Used};
use crate::r#gen::{FOREIGN, FOREIGN_CHARACTERS, Rng, over};
use crate::log_calls::Param;
use crate::log_case::{Case, Damage};
use crate::log_checks::{MAX_LEVEL, MAX_RECORDS, MAX_TEXTS};
use crate::log_lists::{Call, Step};
use crate::log_model::Change;
use crate::undo::lists;

/// What can be wrong with a lent log or with the arguments.
#[derive(Clone, Copy)]
enum Fault {
    /// Another byte where a record begins.
    Kind,
    /// Another byte anywhere in the records.
    Record,
    /// A length that is one off.
    Length,
    /// A byte that changes from one text to the next.
    Shift,
    /// Bytes in the texts that are not UTF-8 or are outside the repertoire.
    Text,
    /// A used length that is a little off, or the same in fewer bytes.
    Used,
    /// A used length over the buffer.
    Over,
    /// Used lengths whose sum is within the buffer only if it wraps.
    Wrap,
    /// A level over 255.
    Level,
    /// A buffer over its limit.
    Large,
    /// A buffer that ends within the lists.
    Short,
    /// An argument that is not UTF-8 or is outside the repertoire.
    Argument,
}

#[rustfmt::skip]
const FAULTS: [Fault; 12] = [
    Fault::Kind, Fault::Record, Fault::Length, Fault::Shift, Fault::Text, Fault::Used, Fault::Over, Fault::Wrap,
    Fault::Level, Fault::Large, Fault::Short, Fault::Argument,
];

/// The call with one to three faults.
pub fn drawn_fault(rng: &mut Rng, case: &Case, mut call: Call) -> Step {
    let mut damages = Vec::new();
    for _ in 0..rng.pick(&[1, 1, 1, 2, 2, 3]) {
        match rng.pick(&FAULTS) {
            Fault::Argument => spoil(rng, &mut call),
            fault => damages.extend(drawn_damage(rng, case, fault)),
        }
    }
    Step::Damaged(damages, call)
}

/// What a drawn fault does to this log.
pub fn log_damage(rng: &mut Rng, case: &Case) -> Vec<Damage> {
    let fault = rng.pick(&FAULTS);
    drawn_damage(rng, case, fault)
}

/// Foreign bytes in a text among the arguments, or a foreign character.
fn spoil(rng: &mut Rng, call: &mut Call) {
    let foreign = |param: &&Param| !matches!(param, Param::Idx | Param::Len);
    let params: Vec<&Param> = call.entry().takes.iter().filter(foreign).collect();
    if params.is_empty() {
        return;
    }
    let text = match rng.pick(&params) {
        Param::Buf => &mut call.args.buf,
        Param::Old => &mut call.args.old,
        Param::New => &mut call.args.new,
        _ => return call.args.ch = rng.pick(&FOREIGN_CHARACTERS),
    };
    let place = rng.pick(&[0, text.len()]);
    text.splice(place..place, rng.pick(&FOREIGN).iter().copied());
}

/// What a fault does to this log: nothing where there is nothing to spoil.
fn drawn_damage(rng: &mut Rng, case: &Case, fault: Fault) -> Vec<Damage> {
    let loan = case.loan();
    let Log { undo, redo, .. } = loan.log;
    let used = Used { records: undo.records + redo.records, texts: undo.texts + redo.texts };
    match fault {
        Fault::Kind if used.records > 0 => {
            let start = rng.pick(&places(case).0);
            vec![Damage::RecordsByte(start, rng.pick(&[0, 1, 2, 3, 4, 5, 6, 7, 0x83, 0xFF]))]
        }
        Fault::Record if used.records > 0 => vec![Damage::RecordsByte(rng.below(used.records), rng.next() as u8)],
        Fault::Length => {
            let lengths = places(case).1;
            let more = rng.pick(&[1, u16::MAX, 256]);
            lengths.get(rng.below(lengths.len().max(1))).map_or(vec![], |&at| added(loan.records, at, more))
        }
        Fault::Shift => {
            let lengths = places(case).1;
            let more = rng.pick(&[1, u16::MAX]);
            let Some(&[a, b]) = lengths.windows(2).nth(rng.below(lengths.len().max(2) - 1)) else { return vec![] };
            [added(loan.records, a, more), added(loan.records, b, more.wrapping_neg())].concat()
        }
        Fault::Text if used.texts > 0 => {
            let places = rng.below(used.texts)..used.texts;
            places.zip(rng.pick(&FOREIGN)).map(|(place, &byte)| Damage::TextsByte(place, byte)).collect()
        }
        Fault::Used => {
            let more = rng.pick(&[1, 2, 5, usize::MAX, usize::MAX - 4, 65536, 1 << 32]);
            vec![rng.pick(&[
                Damage::UndoRecords(undo.records.wrapping_add(more)),
                Damage::UndoTexts(undo.texts.wrapping_add(more)),
                Damage::RedoRecords(redo.records.wrapping_add(more)),
                Damage::RedoTexts(redo.texts.wrapping_add(more)),
            ])]
        }
        Fault::Over => {
            let records = over(rng, loan.records.len() - used.records);
            let texts = over(rng, loan.texts.len() - used.texts);
            vec![rng.pick(&[
                Damage::UndoRecords(undo.records.saturating_add(records)),
                Damage::UndoTexts(undo.texts.saturating_add(texts)),
                Damage::RedoRecords(redo.records.saturating_add(records)),
                Damage::RedoTexts(redo.texts.saturating_add(texts)),
            ])]
        }
        Fault::Wrap => {
            let low = rng.pick(&[0, 1, usize::MAX / 2]);
            let (high, records, texts) = (usize::MAX - low, low + 1 + undo.records, low + 1 + undo.texts);
            match rng.below(4) {
                0 => vec![Damage::UndoRecords(high), Damage::RedoRecords(records)],
                1 => vec![Damage::UndoRecords(records), Damage::RedoRecords(high)],
                2 => vec![Damage::UndoTexts(high), Damage::RedoTexts(texts)],
                _ => vec![Damage::UndoTexts(texts), Damage::RedoTexts(high)],
            }
        }
        Fault::Level => vec![Damage::Level(rng.pick(&[MAX_LEVEL + 1, MAX_LEVEL + 2, 65536, 1 << 32, usize::MAX]))],
        Fault::Large => {
            let more = rng.pick(&[1, 1, 2, 4096]);
            vec![rng.pick(&[Damage::RecordsSize(MAX_RECORDS + more), Damage::TextsSize(MAX_TEXTS + more)])]
        }
        Fault::Short if used.records > 0 && rng.one_in(2) => vec![Damage::RecordsSize(rng.below(used.records))],
        Fault::Short if used.texts > 0 => vec![Damage::TextsSize(rng.below(used.texts))],
        _ => vec![],
    }
}

/// Where records begin, and where lengths of texts stand in them.
fn places(case: &Case) -> (Vec<usize>, Vec<usize>) {
    let (mut starts, mut lengths) = (Vec::new(), Vec::new());
    let mut at = 0;
    for change in lists::undo(case.rust()).chain(lists::redo(case.rust())) {
        starts.push(at);
        let texts = match change {
            Change::Begin | Change::End => 0,
            Change::Insert(..) | Change::Delete(..) => 1,
            Change::Replace(..) => 2,
        };
        lengths.extend((0..texts).map(|text| at + 3 + 2 * text));
        at += if texts == 0 { 1 } else { 3 + 2 * texts };
    }
    (starts, lengths)
}

/// A number in the records with so much added to it.
fn added(records: &[u8], at: usize, more: u16) -> Vec<Damage> {
    let number = u16::from_le_bytes([records[at], records[at + 1]]).wrapping_add(more);
    let [low, high] = number.to_le_bytes();
    vec![Damage::RecordsByte(at, low), Damage::RecordsByte(at + 1, high)]
}
