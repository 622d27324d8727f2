//! The inputs of the calls that are lent a kill ring, in four parts: every list of a few small calls, characters and
//! foreign bytes, faults, drawn lists of calls.
use std::collections::HashSet;

use crate::checks::in_repertoire;
use crate::r#gen::{BLOCK, CODE_POINTS, Rng, foreign_places};
use crate::ring_calls::{Args, ENTRIES, RESET, YANK, YANK_POP};
use crate::ring_case::Damage;
use crate::ring_checks::{LENGTH, MAX_SLOTS, SLOT};
use crate::ring_faults::drawn_fault;
use crate::ring_gen::{Habit, drawn_buffers, drawn_call, drawn_ring, drawn_size, drawn_step, kill, new_ring};
use crate::ring_lists::{Call, Played, Step};
use crate::runner::Runner;
use crate::tally::Tally;

/// `n` comparisons, or the account of the first difference.
pub fn run(n: u64, seed: u64, trace: bool, tally: &mut Tally) -> Result<(), String> {
    let mut rng = Rng::new(seed);
    let mut runner = Runner::new(tally, "rings", trace);
    every_list(&mut runner, n / 3)?;
    characters(&mut runner, n / 12)?;
    faults(&mut runner, &mut rng, n / 4)?;
    drawn(&mut runner, &mut rng, n)
}

/// A list on a new ring, in buffers of just the sizes that it takes.
fn on_new(runner: &mut Runner, size: usize, steps: &[Step]) -> Result<Played, String> {
    runner.list([size * SLOT, size * LENGTH], &[&[new_ring(size)], steps].concat())
}

fn copy(played: &Played) -> Played {
    Played { list: played.list.clone(), case: played.case.damaged(&[]), conditions: () }
}

/// The largest ring and the longest list of `every_list`.
const SMALL_RING: usize = 3;
const LONGEST: usize = 8;

/// The calls of `every_list`: all but new, kills of three texts in both directions.
fn small_calls() -> Vec<Call> {
    let mut all: Vec<Call> = [RESET, YANK, YANK_POP].map(|name| Call::new(name, Args::default())).into();
    for text in ["", "a", "bc"] {
        all.extend([0, 1].map(|mode| kill(text.as_bytes(), mode)));
    }
    all
}

/// Every list of those calls on a new ring of each small size, length by length. A call sees nothing but what it is
/// lent: of lists that leave the same record and the same bytes in both buffers one is gone on with. As far as `share`
/// comparisons reach.
fn every_list(runner: &mut Runner, share: u64) -> Result<(), String> {
    let limit = runner.done + share;
    let calls = small_calls();
    let mut sizes = Vec::new();
    for size in 0..=SMALL_RING {
        sizes.push((HashSet::new(), vec![on_new(runner, size, &[])?]));
    }
    for _ in 0..LONGEST {
        for (seen, lists) in &mut sizes {
            let mut longer = Vec::new();
            for (list, call) in lists.iter().flat_map(|list| calls.iter().map(move |call| (list, call))) {
                if runner.done >= limit {
                    return Ok(());
                }
                let mut played = copy(list);
                runner.step(&mut played, Step::Call(call.clone()))?;
                if seen.insert(played.case.state()) {
                    longer.push(played);
                }
            }
            *lists = longer;
        }
    }
    Ok(())
}

/// Characters, then foreign bytes, each as far as half of `share` reaches.
fn characters(runner: &mut Runner, share: u64) -> Result<(), String> {
    let middle = runner.done + share / 2;
    for c in 0..CODE_POINTS {
        if runner.done >= middle {
            break;
        }
        let text = char::from_u32(c).unwrap().to_string().into_bytes();
        on_new(runner, 1, &[Step::Call(kill(&text, 0)), Step::Call(kill(&text, 1))])?;
        if !in_repertoire(c) {
            foreign_slot(runner, text, c as usize)?;
        }
    }
    foreign_anywhere(runner, middle + share / 2)
}

/// A call on a ring whose second slot has this text: each in turn.
fn foreign_slot(runner: &mut Runner, text: Vec<u8>, turn: usize) -> Result<(), String> {
    let slots = ["a".into(), text, "b".into()];
    let mut set: Vec<Damage> = (0..).zip(slots).map(|(slot, text)| Damage::Text(slot, text)).collect();
    set.push(Damage::Count(SMALL_RING));
    let call = Call { row: 1 + turn % (ENTRIES.len() - 1), args: Args::default() };
    on_new(runner, SMALL_RING, &[Step::Set(set), Step::Call(call)])?;
    Ok(())
}

/// Foreign bytes at every place of a slot and of a text to kill, in turn. As far as `limit` reaches.
fn foreign_anywhere(runner: &mut Runner, limit: u64) -> Result<(), String> {
    for (place, foreign, turn) in foreign_places() {
        if runner.done >= limit {
            break;
        }
        let mut text = vec![b'a'; BLOCK];
        text[place..].iter_mut().zip(foreign).for_each(|(byte, &foreign)| *byte = foreign);
        match turn % 2 {
            0 => foreign_slot(runner, text, turn / 2)?,
            _ => drop(on_new(runner, 1, &[Step::Call(kill(&text, 0))])?),
        }
    }
    Ok(())
}

/// Calls on one ring, each with faults of its own.
const CALLS: usize = 4;

/// Single calls with one to three faults, on drawn rings, until `share` comparisons are done.
fn faults(runner: &mut Runner, rng: &mut Rng, share: u64) -> Result<(), String> {
    let limit = runner.done + share;
    while runner.done < limit {
        let (mut played, habit) = start(runner, rng)?;
        runner.go_on(&mut played, CALLS, limit, |case| {
            let call = drawn_call(rng, case, habit);
            drawn_fault(rng, case, call)
        })?;
    }
    Ok(())
}

/// A drawn ring: one in six has long texts, one in 64 the most slots with the longest texts.
fn start(runner: &mut Runner, rng: &mut Rng) -> Result<(Played, Habit), String> {
    let habit = if rng.one_in(6) { Habit::Long } else { Habit::Short };
    let (size, habit) = if rng.one_in(64) { (MAX_SLOTS, Habit::Long) } else { (drawn_size(rng), habit) };
    let buffers = drawn_buffers(rng, size);
    Ok((runner.list(buffers, &drawn_ring(rng, size, habit))?, habit))
}

/// Drawn lists until `n` comparisons are done.
fn drawn(runner: &mut Runner, rng: &mut Rng, n: u64) -> Result<(), String> {
    while runner.done < n {
        let (mut played, habit) = start(runner, rng)?;
        runner.go_on(&mut played, rng.below(40), n, |case| drawn_step(rng, case, habit))?;
    }
    Ok(())
}
