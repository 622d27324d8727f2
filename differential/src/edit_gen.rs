//! Inputs of the calls that are lent a text and a log: drawn steps.
use crate::checks::MAX_TEXT;
use crate::edit_calls::{ENTRIES, Entry};
use crate::edit_case::Case;
use crate::edit_lists::{Call, Faults, Step};
use crate::ffi::Line;
use crate::r#gen::{BLOCK, Draft, FAULTS, FOREIGN, Rng, behind, boundary, drawn_args, drawn_place, drawn_text, spoil};
use crate::line_calls::{self, Args, BACKWARD_CHAR, FORWARD_CHAR, Param};
use crate::log_case::Damage;
use crate::log_faults::log_damage;
use crate::log_gen::{MIXES, drawn_step as drawn_log_step};
use crate::log_model::Change;

/// The largest text to put in that is drawn, and the most bytes that repeating it and indenting may give.
const LONGEST: usize = 40;
const REPEATED: usize = 1 << 20;
const INDENTED: usize = 1 << 16;

/// What a list is made of.
#[derive(Clone, Copy, PartialEq, Eq)]
pub enum Habit {
    /// Every step there is.
    Any,
    /// Mostly edits of one character or cluster each, which may join the newest record.
    Characters,
}

/// A step that goes on from this text and log: mostly an edit, now and then one with faults.
pub fn drawn_step(rng: &mut Rng, case: &Case, habit: Habit) -> Step {
    let most = if habit == Habit::Any { 32 } else { 160 };
    match rng.below(most) {
        0..=5 => {
            let row = rng.below(line_calls::ENTRIES.len());
            Step::Call(Call::line(row, drawn_args(rng, case.text())))
        }
        6..=9 => {
            let mix = rng.pick(&MIXES);
            Step::Log(drawn_log_step(rng, &case.log, &mix))
        }
        10..=12 => another_text(rng, case),
        _ if case.line().len == 0 && !rng.one_in(3) => another_text(rng, case),
        13..=15 => {
            let call = drawn_edit(rng, case, habit);
            damaged(rng, case, call)
        }
        _ => Step::Call(drawn_edit(rng, case, habit)),
    }
}

/// A text of any length that the buffer holds, mostly a short one, with a boundary as the cursor.
pub fn another_text(rng: &mut Rng, case: &Case) -> Step {
    let (few, some, any) = (rng.below(12), rng.below(60), rng.below(case.size() + 1));
    let len = rng.pick(&[few, few, some, some, any, case.size()]).min(case.size());
    let text = drawn_text(rng, len);
    let cursor = boundary(rng, &text);
    Step::Text(String::from_utf8(text).unwrap(), cursor)
}

/// A fit call.
pub fn drawn_edit(rng: &mut Rng, case: &Case, habit: Habit) -> Call {
    let mut args = edit_args(rng, case.text(), case.line().cursor);
    if habit == Habit::Characters && !rng.one_in(8) {
        args.n = 1;
        args.mvt = rng.pick(&[BACKWARD_CHAR, BACKWARD_CHAR, FORWARD_CHAR]);
        let rows: Vec<usize> = (0..ENTRIES.len()).filter(|&row| is_by_character(&ENTRIES[row])).collect();
        return Call::edit(rng.pick(&rows), args);
    }
    Call::edit(rng.below(ENTRIES.len()), args)
}

/// Fit arguments: a new place of the cursor is one of the text to put in, a size leads back to a boundary; one of
/// either in eight is any number near it.
pub fn edit_args(rng: &mut Rng, text: &[u8], cursor: usize) -> Args {
    let mut args = drawn_args(rng, text);
    if rng.one_in(4) {
        let len = rng.below(LONGEST);
        args.buf = drawn_text(rng, len);
    }
    args.pos = drawn_place(rng, &args.buf);
    args.size = match rng.one_in(8) {
        true => rng.below(cursor + 3),
        false => cursor - boundary(rng, &text[..cursor]),
    };
    let lines = 1 + text.iter().filter(|&&b| b == b'\n').count();
    args.n = args.n.min((REPEATED / args.buf.len().max(1)).min(u16::MAX.into()) as u16);
    args.amount = args.amount.min((INDENTED / lines).min(u8::MAX.into()) as u8);
    args
}

/// A call that with n = 1 is of one character or cluster, or with the right movement.
fn is_by_character(entry: &Entry) -> bool {
    let moves = entry.takes.contains(&Param::Mvt) && !entry.takes.contains(&Param::Amount);
    moves || matches!(entry.takes, [Param::N] | [Param::Ch, Param::N])
}

/// The call with one to three faults: in the text or the arguments, or in the log.
pub fn damaged(rng: &mut Rng, case: &Case, mut call: Call) -> Step {
    let Line { len, cursor } = case.line();
    let mut buffer = case.text().to_vec();
    buffer.extend(behind(rng, MAX_TEXT - len));
    let mut draft = Draft { buffer, len, cursor, args: call.args.clone() };
    let uses = call.uses();
    let mut log = Vec::new();
    let mut faults: Vec<usize> = Vec::new();
    for _ in 0..rng.pick(&[1, 1, 1, 2, 2, 3]) {
        match rng.below(8) {
            0..=3 => faults.push(rng.below(FAULTS.len())),
            4 if uses.contains(&Param::Buf) => draft.args.buf.extend_from_slice(rng.pick(&FOREIGN)),
            _ => log.extend(log_damage(rng, &case.log)),
        }
    }
    faults.sort_unstable();
    faults.into_iter().for_each(|fault| spoil(rng, &mut draft, &uses, FAULTS[fault]));
    call.args = draft.args;
    let line = Line { len: draft.len, cursor: draft.cursor };
    Step::Damaged(Faults { buffer: draft.buffer, line, log }, call)
}

/// Where foreign bytes stand.
#[derive(Clone, Copy, PartialEq, Eq)]
pub enum Whose {
    /// In the texts of the redo list, or of the undo list.
    Redo,
    Undo,
    /// In the text.
    Text,
    /// In the text to put in.
    Argument,
}

/// The call with foreign bytes at a place of a text of `BLOCK` bytes.
pub fn foreign_at(place: usize, foreign: &[u8], whose: Whose, mut call: Call) -> Vec<Step> {
    let bytes = (place..BLOCK).zip(foreign.iter().copied());
    let mut faults = Faults { buffer: vec![b'a'; BLOCK], line: Line { len: BLOCK, cursor: BLOCK }, log: Vec::new() };
    match whose {
        Whose::Text => bytes.for_each(|(place, byte)| faults.buffer[place] = byte),
        Whose::Argument => {
            call.args.buf = vec![b'a'; BLOCK];
            bytes.for_each(|(place, byte)| call.args.buf[place] = byte);
        }
        Whose::Redo | Whose::Undo => faults.log = bytes.map(|(place, byte)| Damage::TextsByte(place, byte)).collect(),
    }
    let in_front = usize::from(whose != Whose::Redo);
    vec![Step::lay(Change::Delete(0, "a".repeat(BLOCK))), Step::seam(in_front), Step::Damaged(faults, call)]
}
