//! Sessions: lists of calls on one text, cursor and log, from an empty log on, drawn as they go.
use crate::checks::MAX_TEXT;
use crate::conclusions::Conclusion;
use crate::edit_calls;
use crate::edit_case::Case;
use crate::edit_gen::edit_args;
use crate::edit_lists::{Call, Played, Step};
use crate::r#gen::{Draft, FIRST, FOREIGN, Fault, Rng, boundary, drawn_place, spoil};
use crate::line_calls::{self, Args, Param};
use crate::log_calls;
use crate::log_checks::{MAX_RECORDS, MAX_TEXTS};
use crate::log_lists;
use crate::undo::lists;
use crate::undo_calls::{CANCEL, REDO, UNDO};
use crate::undo_gen::{drawn_call, drawn_count};

/// What texts are made of: letters of one and two bytes, white space, a mark.
const LETTERS: [char; 6] = ['a', 'B', ' ', '\n', '\u{DF}', '\u{301}'];

#[derive(Clone, Copy)]
enum Kind {
    Edit,
    /// An edit of one character, which may join the newest record.
    Character,
    Move,
    Begin,
    End,
    LastInsert,
    Undo,
    Redo,
    Cancel,
    Grow,
}

#[rustfmt::skip]
const KINDS: [Kind; 10] = [
    Kind::Edit, Kind::Character, Kind::Move, Kind::Begin, Kind::End, Kind::LastInsert, Kind::Undo, Kind::Redo,
    Kind::Cancel, Kind::Grow,
];

/// How often each kind comes, in that order: all of them, mostly characters, mostly groups.
type Mix = [usize; KINDS.len()];
const MIXES: [Mix; 3] =
    [[30, 10, 10, 6, 6, 2, 5, 2, 4, 3], [6, 50, 8, 4, 4, 2, 5, 2, 2, 2], [10, 20, 4, 16, 8, 2, 6, 2, 8, 2]];

/// What a session is made of.
pub struct Habit {
    mix: Mix,
    /// Undo and redo inside open groups too, against the conditions of demand 3.
    breaks: bool,
}

pub fn drawn_habit(rng: &mut Rng) -> Habit {
    Habit { mix: rng.pick(&MIXES), breaks: rng.one_in(6) }
}

/// The sizes of the buffers, and the first text. Mostly there is room for a few calls only.
pub fn drawn_start(rng: &mut Rng) -> ([usize; 3], Step) {
    let (few, some) = (rng.below(5), rng.below(30));
    let letters = rng.pick(&[0, few, few, some]);
    let text = drawn_letters(rng, letters);
    let cursor = boundary(rng, text.as_bytes());
    let mut room = |tight: usize, roomy: usize, most: usize| match rng.below(40) {
        0 => most,
        1..=19 => rng.below(tight),
        _ => rng.below(roomy),
    };
    let size = (text.len() + room(12, 200, MAX_TEXT)).min(MAX_TEXT);
    ([size, room(80, 600, MAX_RECORDS), room(40, 600, MAX_TEXTS)], Step::Text(text, cursor))
}

/// The next step of a session.
pub fn drawn_step(rng: &mut Rng, habit: &Habit, played: &Played) -> Step {
    let case = &played.case;
    let may_undo = habit.breaks || played.conditions.open().is_empty();
    let kind = match lists::redo(case.log.rust()).len() > 0 && rng.one_in(3) {
        // Else an edit soon drops the redo list.
        true => rng.pick(&[Kind::Undo, Kind::Redo, Kind::Move]),
        false => KINDS[rng.weighted(&habit.mix)],
    };
    let call = match kind {
        Kind::Begin => return log_call(log_calls::BEGIN),
        Kind::End => return log_call(log_calls::END),
        Kind::LastInsert => return log_call(log_calls::LAST_INSERT),
        Kind::Grow => return drawn_growth(rng, case),
        Kind::Undo if may_undo => few_units(rng, UNDO, case),
        Kind::Redo if may_undo => few_units(rng, REDO, case),
        Kind::Cancel => drawn_cancel(rng, played),
        Kind::Move => {
            let pos = drawn_place(rng, case.text());
            Call::line(rng.below(line_calls::ENTRIES.len()), Args { pos, ..drawn_args(rng, case) })
        }
        Kind::Character => drawn_character(rng),
        Kind::Edit | Kind::Undo | Kind::Redo => Call::edit(rng.below(edit_calls::ENTRIES.len()), drawn_args(rng, case)),
    };
    Step::Call(if rng.one_in(12) { unfit(rng, case, call) } else { call })
}

/// An undo behind the last group, so that demand 3 is due with a redo list too.
pub fn last_undo(rng: &mut Rng, case: &Case) -> Step {
    Step::Call(few_units(rng, UNDO, case))
}

/// The call with any count, or three times in four with a small one.
fn few_units(rng: &mut Rng, name: &str, case: &Case) -> Call {
    let mut call = drawn_call(rng, name, case);
    if !rng.one_in(4) {
        call.args.n = rng.pick(&[0, 1, 1, 1, 2, 3]);
    }
    call
}

/// A call of the log's own without arguments.
fn log_call(name: &str) -> Step {
    let call = log_lists::Call { row: log_calls::row(name), args: log_calls::Args::default() };
    Step::Log(log_lists::Step::Call(call))
}

/// The end that closes every group.
pub fn end() -> Step {
    log_call(log_calls::END)
}

fn drawn_letters(rng: &mut Rng, count: usize) -> String {
    (0..count).map(|_| rng.pick(&LETTERS)).collect()
}

/// Fit arguments, short texts, small counts; a new place of the cursor is one of the text to put in.
fn drawn_args(rng: &mut Rng, case: &Case) -> Args {
    let mut args = edit_args(rng, case.text(), case.line().cursor);
    let (letters, few) = (rng.below(5), rng.below(12) as u16);
    args.buf = drawn_letters(rng, letters).into();
    args.pos = drawn_place(rng, &args.buf);
    args.ch = rng.pick(&LETTERS).into();
    args.n = rng.pick(&[0, 1, 1, 1, 1, 2, 2, 3, few, u16::MAX]);
    args.amount = rng.pick(&[0, 1, 1, 2, 3, 33]);
    args
}

/// One character put in or cut.
fn drawn_character(rng: &mut Rng) -> Call {
    let name =
        rng.pick(&["tlf_line_insert", "tlf_line_insert", "tlf_line_insert", "tlf_line_backspace", "tlf_line_delete"]);
    let ch = rng.pick(&['a', 'a', 'b', '\u{DF}', ' ', '\n', '\u{301}']);
    Call::edit(edit_calls::row(name), Args { ch: ch.into(), ..FIRST })
}

/// A cancel: mostly of an open group.
fn drawn_cancel(rng: &mut Rng, played: &Played) -> Call {
    let mut call = drawn_call(rng, CANCEL, &played.case);
    let open = played.conditions.open();
    if !open.is_empty() && !rng.one_in(4) {
        call.args.mark = rng.pick(open);
    }
    call
}

/// The call with an argument that a check refuses, where it has such an argument.
fn unfit(rng: &mut Rng, case: &Case, mut call: Call) -> Call {
    let uses = call.uses();
    let takes_text = uses.contains(&Param::Buf);
    match rng.below(6) {
        0 if takes_text => call.args.buf.extend_from_slice(rng.pick(&FOREIGN)),
        1 if takes_text => call.args.buf = vec![b'a'; case.size() + 1],
        _ => {
            let line = case.line();
            let args = call.args.clone();
            let mut draft = Draft { buffer: case.text().to_vec(), len: line.len, cursor: line.cursor, args };
            let fault = rng.pick(&[Fault::Place, Fault::Code, Fault::Character, Fault::Prompt]);
            spoil(rng, &mut draft, &uses, fault);
            call.args = draft.args;
        }
    }
    call
}

fn drawn_growth(rng: &mut Rng, case: &Case) -> Step {
    let mut more = || rng.pick(&[0, 0, 1, 5, 12, 40]);
    let [size, records, texts] = sizes(case);
    Step::Grow([(size + more()).min(MAX_TEXT), (records + more()).min(MAX_RECORDS), (texts + more()).min(MAX_TEXTS)])
}

/// So much more room for records.
pub fn more_records(case: &Case, more: usize) -> Step {
    let [size, records, texts] = sizes(case);
    Step::Grow([size, (records + more).min(MAX_RECORDS), texts])
}

fn sizes(case: &Case) -> [usize; 3] {
    let loan = case.log.loan();
    [case.size(), loan.records.len(), loan.texts.len()]
}

/// What is concluded of one session.
pub fn drawn_conclusions(rng: &mut Rng) -> Vec<Step> {
    let mut count = || drawn_count(rng, 12);
    let counts: Vec<u16> = vec![count(), count(), count()];
    let mut natural = || 1 + rng.below(8) as u16;
    let conclusions = [
        Conclusion::ToTheEnd(vec![1]),
        Conclusion::ToTheEnd(vec![u16::MAX]),
        Conclusion::ToTheEnd(counts),
        Conclusion::Back(natural()),
        Conclusion::Back(natural()),
        Conclusion::Back(u16::MAX),
        Conclusion::Sum(natural(), natural()),
        Conclusion::Sum(1, natural()),
        Conclusion::Sum(natural(), u16::MAX - 8),
    ];
    conclusions.map(Step::Conclude).into()
}
