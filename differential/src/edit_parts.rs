//! The inputs of the calls that are lent a text and a log, in five parts: small texts and small records with every
//! small call, characters and foreign bytes, the largest text and log to the last byte, faults, drawn lists of calls.
use crate::checks::MAX_TEXT;
use crate::edit_calls::ENTRIES;
use crate::edit_gen::{Habit, Whose, another_text, damaged, drawn_edit, drawn_step, edit_args, foreign_at};
use crate::edit_lists::{Call, Played, Step};
use crate::ffi::Log;
use crate::r#gen::{BLOCK, FIRST, Rng};
use crate::r#gen::{boundaries, code_args, foreign_places, members, small_args, small_text, small_texts};
use crate::line_calls::{Args, Param, WHOLE_BUFFER};
use crate::log_checks::{MAX_RECORDS, MAX_TEXTS};
use crate::log_gen::{AMPLE, drawn_change, drawn_size, filling, small_records};
use crate::log_model::Change;
use crate::runner::Runner;
use crate::tally::Tally;

/// `n` comparisons, or the account of the first difference.
pub fn run(n: u64, seed: u64, trace: bool, tally: &mut Tally) -> Result<(), String> {
    let mut rng = Rng::new(seed);
    let mut runner = Runner::new(tally, "edits", trace);
    every_small_call(&mut runner, &mut rng, n / 3)?;
    characters(&mut runner, n / 12)?;
    to_the_last_byte(&mut runner, n)?;
    faults(&mut runner, &mut rng, n)?;
    drawn(&mut runner, &mut rng, n)
}

/// Every small text with every boundary as its cursor and every call: with all small arguments as far as half of
/// `share` reaches, then once with drawn ones. The log holds the small records in turn, in front of the seam or behind
/// it.
fn every_small_call(runner: &mut Runner, rng: &mut Rng, share: u64) -> Result<(), String> {
    let (middle, limit) = (runner.done + share / 2, runner.done + share);
    let records = small_records();
    let mut turn = 0;
    for letters in 0.. {
        for number in 0..small_texts(letters) {
            let text = small_text(number, letters);
            for cursor in boundaries(text.as_bytes()) {
                let all = runner.done < middle;
                for call in small_calls(rng, &text, cursor, all) {
                    if runner.done >= limit {
                        return Ok(());
                    }
                    let log =
                        [Step::lay(records[turn % records.len()].clone()), Step::seam(usize::from(turn % 3 != 0))];
                    every_room(runner, &[&log[..], &[Step::Text(text.clone(), cursor)]].concat(), call)?;
                    turn += 1;
                }
            }
        }
    }
    Ok(())
}

/// Each call on this text: with all small arguments, or once with drawn ones.
fn small_calls(rng: &mut Rng, text: &str, cursor: usize, all: bool) -> Vec<Call> {
    let mut calls = Vec::new();
    for (row, entry) in ENTRIES.iter().enumerate() {
        let args = if all { small_args(entry.takes, text) } else { vec![edit_args(rng, text.as_bytes(), cursor)] };
        calls.extend(args.into_iter().map(|args| Call::edit(row, args)));
    }
    calls
}

/// The call after these steps with ample room, then with just the room that it needs, then with a byte less of each
/// buffer. Where the call records nothing, with ample room alone.
fn every_room(runner: &mut Runner, before: &[Step], call: Call) -> Result<(), String> {
    let mut played = runner.list([AMPLE; 3], before)?;
    let lent = both(&played.case.log.loan().log);
    let len = played.case.line().len;
    let edit = Step::Call(call);
    runner.step(&mut played, edit.clone())?;
    let left = both(&played.case.log.loan().log);
    let [records, texts] = [lent[0].max(left[0]), lent[1].max(left[1])];
    if [records, texts] == lent {
        return Ok(());
    }
    let mut size = len.max(played.case.line().len);
    let mut again = |size, records, texts| {
        let mut played = runner.list([size, records, texts], before)?;
        runner.step(&mut played, edit.clone())
    };
    if size > len {
        again(size - 1, records, texts)?;
    }
    // A text in between may be longer than the last.
    while again(size, records, texts)? == Some(9) {
        size += 1;
    }
    if records > lent[0] {
        again(size, records - 1, texts)?;
    }
    if texts > lent[1] {
        again(size, records, texts - 1)?;
    }
    Ok(())
}

/// The used lengths of records and texts, both lists together.
fn both(log: &Log) -> [usize; 2] {
    [log.undo.records + log.redo.records, log.undo.texts + log.redo.texts]
}

/// Characters, then foreign bytes, each as far as half of `share` reaches.
fn characters(runner: &mut Runner, share: u64) -> Result<(), String> {
    let middle = runner.done + share / 2;
    every_member(runner, middle)?;
    foreign_anywhere(runner, middle + share / 2)
}

/// Each character of the repertoire before and behind the cursor, at the front of a line, and to put in: whether it is
/// alphanumeric shows in what joins the record before it, its class in where words end, its case in words. Movements
/// are left to the calls that are their parts.
fn every_member(runner: &mut Runner, limit: u64) -> Result<(), String> {
    for c in members() {
        let text = Step::Text(format!("-{c}{c}{c}-\n{c}"), 1 + c.len_utf8());
        for record in records_beside(c) {
            for call in ENTRIES.iter().enumerate().flat_map(|(row, entry)| member_calls(row, entry.takes, c)) {
                if runner.done >= limit {
                    return Ok(());
                }
                runner.list([AMPLE; 3], &[Step::lay(record.clone()), text.clone(), Step::Call(call)])?;
            }
        }
    }
    Ok(())
}

/// Records that a character may join: cut before the cursor or behind it, or put in there.
fn records_beside(c: char) -> [Change<String>; 3] {
    let (place, a) = (c.len_utf8(), String::from("a"));
    [Change::Delete(1, a.clone()), Change::Delete(1 + place, a.clone()), Change::Insert(place, a)]
}

/// The call with every combination of codes, and the character to put in or to search for; of the calls with a movement
/// those that dedent a line.
fn member_calls(row: usize, takes: &'static [Param], c: char) -> Vec<Call> {
    let args = match (takes.contains(&Param::Mvt), takes.contains(&Param::Dedent)) {
        (false, _) => code_args(takes),
        (true, true) => vec![Args { mvt: WHOLE_BUFFER, dedent: 1, ..FIRST }],
        (true, false) => Vec::new(),
    };
    let with = |args| Args { ch: c.into(), buf: c.to_string().into(), ..args };
    args.into_iter().map(|args| Call::edit(row, with(args))).collect()
}

const WHOSE: [Whose; 4] = [Whose::Redo, Whose::Undo, Whose::Text, Whose::Argument];

fn takes_text(row: usize) -> bool {
    ENTRIES[row].takes.contains(&Param::Buf)
}

/// Foreign bytes at every place of the text, of the undo list's texts, of the redo list's and of a text to put in, in
/// turn with each call. As far as `limit` reaches.
fn foreign_anywhere(runner: &mut Runner, limit: u64) -> Result<(), String> {
    for (place, foreign, turn) in foreign_places() {
        if runner.done >= limit {
            break;
        }
        let whose = WHOSE[turn % WHOSE.len()];
        let rows: Vec<usize> = (0..ENTRIES.len()).filter(|&row| whose != Whose::Argument || takes_text(row)).collect();
        let call = Call::edit(rows[turn / WHOSE.len() % rows.len()], FIRST);
        runner.list([BLOCK; 3], &foreign_at(place, foreign, whose, call))?;
    }
    Ok(())
}

/// Where the second line of a large text starts.
const HALF: usize = MAX_TEXT / 2;

/// Two lines of so many bytes together, the cursor in the second, with words in front of it and behind it.
fn large_text(len: usize) -> Step {
    let first = format!("{} aaa\n", "a".repeat(HALF - 5));
    let second = format!("{} bc def", "-".repeat(len - HALF - 7));
    Step::Text(first + &second, HALF + 9)
}

/// Every call on the largest text, or where it makes that longer, on one a byte shorter: in buffers of the largest
/// sizes, with just the room that it needs in one of them, and with a byte less. No more than `n` comparisons.
fn to_the_last_byte(runner: &mut Runner, n: u64) -> Result<(), String> {
    let sizes = [MAX_TEXT, MAX_RECORDS, MAX_TEXTS];
    for row in 0..ENTRIES.len() {
        let edit = Step::Call(Call::edit(row, Args { buf: b"-".into(), ..FIRST }));
        for text in [large_text(MAX_TEXT), large_text(MAX_TEXT - 1)] {
            if runner.done + 5 > n {
                return Ok(());
            }
            let mut played = runner.list(sizes, &[text.clone()])?;
            if runner.step(&mut played, edit.clone())? != Some(9) {
                nearly_full(runner, &played.case.log.loan().log, &[text, edit.clone()])?;
                break;
            }
        }
    }
    Ok(())
}

/// The steps, which record so much on an empty log, on logs of the largest sizes with just the room for it in one of
/// the buffers, and with a byte less.
fn nearly_full(runner: &mut Runner, log: &Log, steps: &[Step]) -> Result<(), String> {
    let sizes = [MAX_TEXT, MAX_RECORDS, MAX_TEXTS];
    for less in [0, 1] {
        let ends = vec![Step::lay(Change::End); MAX_RECORDS - log.undo.records + less];
        runner.list(sizes, &[&ends, steps].concat())?;
        if log.undo.texts >= less {
            let full = Step::lay(Change::Insert(9, "a".repeat(MAX_TEXTS - log.undo.texts + less)));
            runner.list(sizes, &[&[full], steps].concat())?;
        }
    }
    Ok(())
}

/// Edits on one text and log, each with faults of its own.
const EDITS: usize = 4;

/// An eighth of `n` comparisons, if so many are left: single edits with one to three faults.
fn faults(runner: &mut Runner, rng: &mut Rng, n: u64) -> Result<(), String> {
    let limit = n.min(runner.done + n / 8);
    while runner.done < limit {
        let mut played = empty(rng);
        let text = another_text(rng, &played.case);
        runner.step(&mut played, text)?;
        let records = rng.below(5);
        for _ in 0..records {
            runner.step(&mut played, Step::lay(drawn_change(rng, 5)))?;
        }
        runner.step(&mut played, Step::seam(rng.below(records + 1)))?;
        runner.go_on(&mut played, EDITS, limit, |case| {
            let call = drawn_edit(rng, case, Habit::Any);
            damaged(rng, case, call)
        })?;
    }
    Ok(())
}

/// Drawn lists until `n` comparisons are done: of every 128 one on a full log of the largest size.
fn drawn(runner: &mut Runner, rng: &mut Rng, n: u64) -> Result<(), String> {
    for turn in 0.. {
        if runner.done >= n {
            break;
        }
        let mut played = if turn % 128 == 0 { full(runner, rng)? } else { empty(rng) };
        let text = another_text(rng, &played.case);
        runner.step(&mut played, text)?;
        let habit = rng.pick(&[Habit::Any, Habit::Any, Habit::Characters]);
        runner.go_on(&mut played, rng.below(24), n, |case| drawn_step(rng, case, habit))?;
    }
    Ok(())
}

/// An empty text and an empty log in buffers of drawn sizes.
fn empty(rng: &mut Rng) -> Played {
    Played::new([drawn_size(rng, MAX_TEXT), drawn_size(rng, MAX_RECORDS), drawn_size(rng, MAX_TEXTS)])
}

/// A log that fills buffers of the largest sizes.
fn full(runner: &mut Runner, rng: &mut Rng) -> Result<Played, String> {
    let less = [0, 0, 0, 1];
    let (records, texts) = (MAX_RECORDS - rng.pick(&less), MAX_TEXTS - rng.pick(&less));
    let mut played = Played::new([MAX_TEXT - rng.pick(&less), records, texts]);
    for change in filling(rng, &played.case.log) {
        runner.step(&mut played, Step::lay(change))?;
    }
    Ok(played)
}
