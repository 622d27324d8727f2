//! The inputs of the calls that are lent a log, in four parts: small records with every small call, characters and
//! foreign bytes, the largest logs to their last byte, drawn lists of calls.
use crate::checks::in_repertoire;
use crate::r#gen::{BLOCK, CODE_POINTS, Rng, foreign_places};
use crate::log_calls::{Args, ENTRIES, row};
use crate::log_case::Damage;
use crate::log_checks::{MAX_LEVEL, MAX_RECORDS, MAX_TEXTS};
use crate::log_gen::{AMPLE, MIXES, drawn_size, drawn_step, filling, small_calls, small_records};
use crate::log_lists::{Call, Played, Step};
use crate::log_model::Change;
use crate::runner::Runner;
use crate::tally::Tally;

/// `n` comparisons, or the account of the first difference.
pub fn run(n: u64, seed: u64, trace: bool, tally: &mut Tally) -> Result<(), String> {
    let mut rng = Rng::new(seed);
    let mut runner = Runner::new(tally, "logs", trace);
    every_small_call(&mut runner, n / 3)?;
    characters(&mut runner, n / 6)?;
    to_the_last_byte(&mut runner, n)?;
    drawn(&mut runner, &mut rng, n)
}

fn call(name: &str, args: Args) -> Step {
    Step::Call(Call { row: row(name), args })
}

/// Every small record, in front of the seam and behind it, with every small call: with ample room, with just the room
/// that it needs, and with a byte less of either. As far as `share` comparisons reach.
fn every_small_call(runner: &mut Runner, share: u64) -> Result<(), String> {
    let limit = runner.done + share;
    let calls = small_calls();
    for record in small_records() {
        for (seam, level) in [(1, 0), (1, 2), (0, 1)] {
            for call in &calls {
                if runner.done >= limit {
                    return Ok(());
                }
                let lay = [Step::Lay(record.clone()), Step::Seam(seam), Step::Level(level)];
                every_room(runner, &lay, Step::Call(call.clone()))?;
            }
        }
    }
    Ok(())
}

/// The call after these steps with ample room, then with what it needs, then with less.
fn every_room(runner: &mut Runner, lay: &[Step], call: Step) -> Result<(), String> {
    let mut steps = lay.to_vec();
    let before = runner.list([AMPLE; 2], &steps)?.case.loan().log;
    steps.push(call);
    let after = runner.list([AMPLE; 2], &steps)?.case.loan().log;
    let lent = (before.undo.records + before.redo.records, before.undo.texts + before.redo.texts);
    let records = lent.0.max(after.undo.records + after.redo.records);
    let texts = lent.1.max(after.undo.texts + after.redo.texts);
    runner.list([records, texts], &steps)?;
    if records > lent.0 {
        runner.list([records - 1, texts], &steps)?;
    }
    if texts > lent.1 {
        runner.list([records, texts - 1], &steps)?;
    }
    Ok(())
}

/// Characters, then foreign bytes, each as far as half of `share` reaches.
fn characters(runner: &mut Runner, share: u64) -> Result<(), String> {
    let middle = runner.done + share / 2;
    for c in 0..CODE_POINTS {
        if runner.done < middle {
            every_role(runner, c)?;
        }
    }
    foreign_anywhere(runner, middle + share / 2)
}

/// A code point as the character or as a text of every call that takes one. Whether it is alphanumeric shows in what
/// joins the record before it.
fn every_role(runner: &mut Runner, c: u32) -> Result<(), String> {
    let text = char::from_u32(c).unwrap().to_string().into_bytes();
    let letter = || vec![b'a'];
    let steps = [
        Step::Lay(Change::Insert(0, "a".into())),
        call("tlf_log_insert", Args { idx: 1, ch: c, ..Args::default() }),
        Step::Lay(Change::Delete(1, "a".into())),
        call("tlf_log_delete", Args { idx: 1, buf: text.clone(), ..Args::default() }),
        call("tlf_log_insert_str", Args { buf: text.clone(), ..Args::default() }),
        call("tlf_log_replace", Args { old: text.clone(), new: letter(), ..Args::default() }),
        call("tlf_log_replace", Args { old: letter(), new: text.clone(), ..Args::default() }),
    ];
    runner.list([AMPLE; 2], &steps)?;
    if in_repertoire(c) {
        return Ok(());
    }
    let bytes: Vec<(usize, u8)> = (0..).zip(text).collect();
    runner.list([BLOCK; 2], &foreign_record(&bytes, c as usize))?;
    Ok(())
}

/// Foreign bytes at every place of a text: in the undo list, in the redo list, in a text to record. As far as `limit`
/// reaches.
fn foreign_anywhere(runner: &mut Runner, limit: u64) -> Result<(), String> {
    for (place, foreign, turn) in foreign_places() {
        if runner.done >= limit {
            break;
        }
        let bytes: Vec<(usize, u8)> = (place..BLOCK).zip(foreign.iter().copied()).collect();
        let steps = if turn % 3 == 0 { foreign_argument(&bytes) } else { foreign_record(&bytes, turn) };
        runner.list([BLOCK; 2], &steps)?;
    }
    Ok(())
}

/// A call on a log that has these bytes at their places in its text: in turn in either list, in turn each call.
fn foreign_record(bytes: &[(usize, u8)], turn: usize) -> Vec<Step> {
    let damages = bytes.iter().map(|&(place, byte)| Damage::TextsByte(place, byte)).collect();
    let row = 1 + turn / 2 % (ENTRIES.len() - 1);
    let damaged = Step::Damaged(damages, Call { row, args: Args::default() });
    vec![Step::Lay(Change::Delete(0, "a".repeat(BLOCK))), Step::Seam(turn % 2), damaged]
}

/// A call with these bytes at their places in its text.
fn foreign_argument(bytes: &[(usize, u8)]) -> Vec<Step> {
    let mut buf = vec![b'a'; BLOCK];
    bytes.iter().for_each(|&(place, byte)| buf[place] = byte);
    vec![call("tlf_log_insert_str", Args { buf, ..Args::default() })]
}

/// The level of an end whose Ends have to fit.
const LEVELS: usize = 3;

/// Each call that records, in buffers of the largest sizes with just the room that it needs in one of them, and with a
/// byte less. No more than `n` comparisons.
fn to_the_last_byte(runner: &mut Runner, n: u64) -> Result<(), String> {
    let letter = || vec![b'a'];
    let calls = [
        (1, 0, call("tlf_log_begin", Args::default())),
        (LEVELS, 0, call("tlf_log_end", Args::default())),
        (5, 1, call("tlf_log_insert", Args { ch: 'a' as u32, ..Args::default() })),
        (5, 1, call("tlf_log_insert_str", Args { buf: letter(), ..Args::default() })),
        (5, 1, call("tlf_log_delete", Args { buf: letter(), ..Args::default() })),
        (7, 2, call("tlf_log_replace", Args { old: letter(), new: letter(), ..Args::default() })),
    ];
    for (records, texts, call) in calls {
        for less in [0, 1] {
            if runner.done + 2 > n {
                return Ok(());
            }
            let mut steps = vec![Step::Lay(Change::End); MAX_RECORDS - records + less];
            steps.extend([Step::Level(LEVELS), call.clone()]);
            runner.list([MAX_RECORDS, MAX_TEXTS], &steps)?;
            let text = "a".repeat(MAX_TEXTS - texts + less);
            if text.len() <= MAX_TEXTS {
                runner.list([MAX_RECORDS, MAX_TEXTS], &[Step::Lay(Change::Delete(9, text)), call.clone()])?;
            }
        }
    }
    Ok(())
}

/// Drawn lists until `n` comparisons are done: of every 128 two on a full log of the largest size, one of many groups.
fn drawn(runner: &mut Runner, rng: &mut Rng, n: u64) -> Result<(), String> {
    for turn in 0.. {
        if runner.done >= n {
            break;
        }
        match turn % 128 {
            0 | 64 => full(runner, rng, n)?,
            1 => deep(runner, rng, n)?,
            _ => {
                let (records, texts) = (drawn_size(rng, MAX_RECORDS), drawn_size(rng, MAX_TEXTS));
                let mut played = runner.list([records, texts], &[call("tlf_log_new", Args::default())])?;
                let steps = 1 + rng.below(60);
                go_on(runner, rng, &mut played, steps, n)?;
            }
        }
    }
    Ok(())
}

/// Drawn steps on this log, until `n` comparisons are done.
fn go_on(runner: &mut Runner, rng: &mut Rng, played: &mut Played, steps: usize, n: u64) -> Result<(), String> {
    let mix = rng.pick(&MIXES);
    runner.go_on(played, steps, n, |case| drawn_step(rng, case, &mix))
}

/// A log that fills buffers of the largest sizes.
fn full(runner: &mut Runner, rng: &mut Rng, n: u64) -> Result<(), String> {
    let less = [0, 0, 0, 1];
    let mut played = Played::new([MAX_RECORDS - rng.pick(&less), MAX_TEXTS - rng.pick(&less)]);
    for change in filling(rng, &played.case) {
        runner.step(&mut played, Step::Lay(change))?;
    }
    go_on(runner, rng, &mut played, 24, n)
}

/// Begins up to the highest level and beyond, with a record here and there, and the end of them all.
fn deep(runner: &mut Runner, rng: &mut Rng, n: u64) -> Result<(), String> {
    let ample = rng.pick(&[2, 3]) * MAX_LEVEL;
    let mut played = runner.list([ample - rng.below(4), AMPLE], &[call("tlf_log_new", Args::default())])?;
    let records = rng.pick(&[1, 60, 300]);
    for _ in 0..MAX_LEVEL + 2 {
        if runner.done >= n {
            return Ok(());
        }
        runner.step(&mut played, call("tlf_log_begin", Args::default()))?;
        if rng.one_in(records) {
            let args = Args { idx: rng.below(4), ch: 'a' as u32, ..Args::default() };
            runner.step(&mut played, call("tlf_log_insert", args))?;
        }
    }
    runner.step(&mut played, call("tlf_log_end", Args::default()))?;
    go_on(runner, rng, &mut played, 12, n)
}
