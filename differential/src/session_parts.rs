//! Whole sessions, with the conclusions of demand 3 at the end of each whose conditions hold.
use crate::edit_lists::Played;
use crate::r#gen::Rng;
use crate::runner::Runner;
use crate::session_gen::{drawn_conclusions, drawn_habit, drawn_start, drawn_step, end, last_undo, more_records};
use crate::tally::Tally;

/// What was played.
#[derive(Default)]
pub struct Counts {
    pub sessions: u64,
    pub calls: u64,
    /// Those at whose end demand 3 is due.
    pub due: u64,
    pub conclusions: u64,
}

/// The most calls of a session, without those that close its groups.
const CALLS: usize = 60;

/// `n` comparisons, or the account of the first difference or wrong conclusion.
pub fn run(n: u64, seed: u64, trace: bool, tally: &mut Tally) -> Result<Counts, String> {
    let mut rng = Rng::new(seed);
    let mut runner = Runner::new(tally, "sessions", trace);
    let mut counts = Counts::default();
    while runner.done < n {
        session(&mut runner, &mut rng, n, &mut counts)?;
    }
    counts.calls = runner.done;
    Ok(counts)
}

/// One session. The last of them may be cut short, and nothing is concluded of it then.
fn session(runner: &mut Runner, rng: &mut Rng, n: u64, counts: &mut Counts) -> Result<(), String> {
    counts.sessions += 1;
    let (sizes, text) = drawn_start(rng);
    let mut played = runner.list(sizes, &[text])?;
    let habit = drawn_habit(rng);
    let calls = 1 + rng.below(CALLS);
    let last = n.min(runner.done + calls as u64);
    while runner.done < last {
        let step = drawn_step(rng, &habit, &played);
        runner.step(&mut played, step)?;
    }
    close(runner, &mut played, n)?;
    if rng.one_in(3) && runner.done < n {
        let undo = last_undo(rng, &played.case);
        runner.step(&mut played, undo)?;
    }
    if played.conditions.first_text().is_none() {
        return Ok(());
    }
    counts.due += 1;
    for step in drawn_conclusions(rng) {
        runner.step(&mut played, step)?;
        counts.conclusions += 1;
    }
    Ok(())
}

/// Ends what groups are open. An end that has no room for its Ends, one for each level at most, is tried again.
fn close(runner: &mut Runner, played: &mut Played, n: u64) -> Result<(), String> {
    while !played.conditions.open().is_empty() && runner.done < n {
        let level = played.case.log.loan().log.level;
        if runner.step(played, end())? == Some(10) {
            runner.step(played, more_records(&played.case, level))?;
        }
    }
    Ok(())
}
