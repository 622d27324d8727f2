//! The inputs of undo, redo and cancel one by one, in seven parts: every small list of groups, small texts with small
//! records, foreign bytes, the largest texts and logs, records far from each other, faults, drawn lists.
use crate::checks::MAX_TEXT;
use crate::edit_gen::{Habit, Whose, another_text, damaged, drawn_step, foreign_at};
use crate::edit_lists::{Call, Played, Step};
use crate::r#gen::{BLOCK, FIRST, Rng, boundaries, foreign_places, small_text, small_texts};
use crate::line_calls::Args;
use crate::log_checks::{MAX_LEVEL, MAX_RECORDS, MAX_TEXTS};
use crate::log_gen::{AMPLE, drawn_size};
use crate::log_lists;
use crate::log_model::Change;
use crate::runner::Runner;
use crate::tally::Tally;
use crate::undo_calls::{CANCEL, ENTRIES, REDO, UNDO, row};
use crate::undo_gen::{FAR, SMALL, drawn_undo, fitting};

/// `n` comparisons, or the account of the first difference.
pub fn run(n: u64, seed: u64, trace: bool, tally: &mut Tally) -> Result<(), String> {
    let mut rng = Rng::new(seed);
    let mut runner = Runner::new(tally, "undo, redo and cancel", trace);
    every_group(&mut runner, 2 * n / 5)?;
    every_small_record(&mut runner, n / 6)?;
    foreign_anywhere(&mut runner, n / 12)?;
    largest(&mut runner, n)?;
    far(&mut runner, seed, n)?;
    faults(&mut runner, &mut rng, n)?;
    drawn(&mut runner, &mut rng, n)
}

fn undo(n: u16) -> Step {
    Step::Call(Call::undo(row(UNDO), Args { n, ..FIRST }))
}

fn redo(n: u16) -> Step {
    Step::Call(Call::undo(row(REDO), Args { n, ..FIRST }))
}

fn cancel(mark: usize) -> Step {
    Step::Call(Call::undo(row(CANCEL), Args { mark, ..FIRST }))
}

fn level(level: usize) -> Step {
    Step::Log(log_lists::Step::Level(level))
}

/// The records of `every_group`: the last fits every text when it is undone, and one of letters when it is redone.
fn group_records() -> [Change<String>; 3] {
    [Change::Begin, Change::End, Change::Delete(0, "a".into())]
}

/// Every list of those records, length by length, with every seam: undo and redo with every count up to one more than
/// there are records, cancel with every mark. With a text and room for all of it, and with so little of both that some
/// are stopped. As far as `share` reaches.
fn every_group(runner: &mut Runner, share: u64) -> Result<(), String> {
    let limit = runner.done + share;
    for len in 0.. {
        for number in 0..group_records().len().pow(len) {
            let records = small_list(number, len);
            for seam in 0..=records.len() {
                for (size, text) in [(AMPLE, "aaaaaaaa"), (2, "a")] {
                    let mut state = vec![Step::Text(text.into(), 0)];
                    state.extend(records.iter().cloned().map(Step::lay));
                    state.extend([Step::seam(seam), level(seam % 3)]);
                    for call in group_calls(records.len()) {
                        if runner.done >= limit {
                            return Ok(());
                        }
                        runner.list([size, AMPLE, AMPLE], &[&state[..], &[call]].concat())?;
                    }
                }
            }
        }
    }
    Ok(())
}

/// The `number`-th list of `len` of those records.
fn small_list(mut number: usize, len: u32) -> Vec<Change<String>> {
    let all = group_records();
    let digit = |_| {
        let record = all[number % all.len()].clone();
        number /= all.len();
        record
    };
    (0..len).map(digit).collect()
}

fn group_calls(records: usize) -> Vec<Step> {
    let counts = 0..=records as u16 + 1;
    counts.clone().map(undo).chain(counts.map(redo)).chain((0..=records).map(cancel)).collect()
}

/// Every small text with every record of small texts behind a Begin, with every seam and so much room that the text may
/// or may not grow by a character. As far as `share` reaches.
fn every_small_record(runner: &mut Runner, share: u64) -> Result<(), String> {
    let limit = runner.done + share;
    let mut turn = 0;
    for letters in 0.. {
        for number in 0..small_texts(letters) {
            let text = small_text(number, letters);
            let cursors: Vec<usize> = boundaries(text.as_bytes()).collect();
            for record in small_records() {
                for (seam, more) in (0..3).flat_map(|seam| (0..3).map(move |more| (seam, more))) {
                    let cursor = cursors[turn % cursors.len()];
                    turn += 1;
                    let lay = [Step::lay(Change::Begin), Step::lay(record.clone()), Step::seam(seam), level(1)];
                    let state = [&[Step::Text(text.clone(), cursor)], &lay[..]].concat();
                    for call in [undo(2), redo(2), cancel(0)] {
                        if runner.done >= limit {
                            return Ok(());
                        }
                        runner.list([text.len() + more, AMPLE, AMPLE], &[&state[..], &[call]].concat())?;
                    }
                }
            }
        }
    }
    Ok(())
}

/// Records of no text, of a byte and of a character of two bytes, at places that may be inside a character or beyond a
/// small text.
fn small_records() -> Vec<Change<String>> {
    let mut all = Vec::new();
    for place in 0..3 {
        for old in ["", "a", "\u{DF}"].map(String::from) {
            all.extend([Change::Insert(place, old.clone()), Change::Delete(place, old.clone())]);
            all.extend(["", "a", "\u{DF}"].map(|new| Change::Replace(place, old.clone(), new.into())));
        }
    }
    all
}

const WHOSE: [Whose; 3] = [Whose::Redo, Whose::Undo, Whose::Text];

/// Foreign bytes at every place of the text, of the undo list's texts and of the redo list's, in turn with each call.
/// As far as `share` reaches.
fn foreign_anywhere(runner: &mut Runner, share: u64) -> Result<(), String> {
    let limit = runner.done + share;
    for (place, foreign, turn) in foreign_places() {
        if runner.done >= limit {
            break;
        }
        let call = Call::undo(turn / WHOSE.len() % ENTRIES.len(), FIRST);
        runner.list([BLOCK; 3], &foreign_at(place, foreign, WHOSE[turn % WHOSE.len()], call))?;
    }
    Ok(())
}

/// Texts and logs of the largest sizes. No more than `n` comparisons.
fn largest(runner: &mut Runner, n: u64) -> Result<(), String> {
    let nothing = || Change::Insert(0, String::new());
    let most = MAX_RECORDS / 5 - 1;
    let group = [vec![Change::Begin], vec![nothing(); most], vec![Change::End]].concat();
    let whole = || "a".repeat(MAX_TEXT);
    let texts = [Change::Insert(0, whole()), Change::Delete(0, whole())];
    let lists = [
        // The text grows to the last byte, or would pass it.
        vec![Change::Begin, Change::Delete(0, "a".into())],
        vec![Change::Begin; MAX_RECORDS],
        vec![Change::End; MAX_RECORDS],
        vec![nothing(); MAX_RECORDS / 5],
        group[..=most].to_vec(),
        group,
        texts.iter().cycle().take(MAX_TEXTS / MAX_TEXT).cloned().collect(),
    ];
    for list in lists {
        for text in [MAX_TEXT, MAX_TEXT - 1, 0].map(|len| Step::Text("a".repeat(len), len / 2)) {
            let mut played = runner.list([MAX_TEXT, MAX_RECORDS, MAX_TEXTS], &[text])?;
            for record in &list {
                runner.step(&mut played, Step::lay(record.clone()))?;
            }
            for step in [level(MAX_LEVEL), undo(u16::MAX), redo(1), redo(u16::MAX), undo(1), undo(300), cancel(0)] {
                if runner.done >= n {
                    return Ok(());
                }
                runner.step(&mut played, step)?;
            }
        }
    }
    Ok(())
}

/// A 64th of `n` comparisons, if so many are left: lists of records that lie far from each other in a long text.
fn far(runner: &mut Runner, seed: u64, n: u64) -> Result<(), String> {
    let (mut rng, limit) = (Rng::new(seed), n.min(runner.done + n / 64));
    for shape in FAR.iter().cycle() {
        if runner.done >= limit {
            break;
        }
        let (sizes, steps) = fitting(&mut rng, shape);
        let mut played = runner.list(sizes, &steps)?;
        runner.go_on(&mut played, 16, limit, |case| Step::Call(drawn_undo(&mut rng, case)))?;
    }
    Ok(())
}

/// Calls on one text and log, each with faults of its own.
const CALLS: usize = 4;

/// An eighth of `n` comparisons, if so many are left: single calls with one to three faults.
fn faults(runner: &mut Runner, rng: &mut Rng, n: u64) -> Result<(), String> {
    let limit = n.min(runner.done + n / 8);
    while runner.done < limit {
        let (sizes, steps) = fitting(rng, &SMALL);
        let mut played = runner.list(sizes, &steps)?;
        runner.go_on(&mut played, CALLS, limit, |case| {
            let call = drawn_undo(rng, case);
            damaged(rng, case, call)
        })?;
    }
    Ok(())
}

/// Drawn lists until `n` comparisons are done: records that fit, or edits, with undo, redo and cancel between them.
fn drawn(runner: &mut Runner, rng: &mut Rng, n: u64) -> Result<(), String> {
    for turn in 0.. {
        if runner.done >= n {
            break;
        }
        if turn % 2 == 0 {
            let (sizes, steps) = fitting(rng, &SMALL);
            let mut played = runner.list(sizes, &steps)?;
            runner.go_on(&mut played, rng.below(8), n, |case| Step::Call(drawn_undo(rng, case)))?;
        } else {
            edited(runner, rng, n)?;
        }
    }
    Ok(())
}

/// Edits, other texts and steps of the log, and after each of them now and then one of the three calls.
fn edited(runner: &mut Runner, rng: &mut Rng, n: u64) -> Result<(), String> {
    let sizes = [drawn_size(rng, MAX_TEXT), drawn_size(rng, MAX_RECORDS), drawn_size(rng, MAX_TEXTS)];
    let mut played = Played::new(sizes);
    let text = another_text(rng, &played.case);
    runner.step(&mut played, text)?;
    let habit = rng.pick(&[Habit::Any, Habit::Characters, Habit::Characters]);
    runner.go_on(&mut played, rng.below(24), n, |case| match rng.one_in(3) {
        true => Step::Call(drawn_undo(rng, case)),
        false => drawn_step(rng, case, habit),
    })
}
