//! Compares the library with the unchanged text of rustyline 19.0.0: `differential [N] [SEED]`.
mod account;
mod checks;
mod conclusions;
mod conditions;
mod edit_account;
mod edit_calls;
mod edit_case;
mod edit_checks;
mod edit_gen;
mod edit_lists;
mod edit_parts;
mod edit_shrink;
// The declarations of the C interface stand once, in the host crate, where `include/check` holds them against the source.
#[allow(dead_code)]
#[path = "../../host/src/ffi.rs"]
mod ffi;
mod r#gen;
mod key_account;
mod key_calls;
mod key_case;
mod key_checks;
mod key_gen;
mod key_lists;
mod key_parts;
mod key_reading;
mod key_shrink;
mod lent;
mod line_calls;
mod line_parts;
mod list_account;
mod list_shrink;
mod listeners;
mod lists;
mod log_account;
mod log_calls;
mod log_case;
mod log_checks;
mod log_faults;
mod log_gen;
mod log_lists;
mod log_model;
mod log_parts;
mod log_shrink;
mod oracle;
mod record;
mod record_heads;
mod record_keys;
mod record_lines;
mod record_slips;
mod ring_account;
mod ring_calls;
mod ring_case;
mod ring_checks;
mod ring_faults;
mod ring_gen;
mod ring_lists;
mod ring_parts;
mod ring_shrink;
mod runner;
mod session_gen;
mod session_parts;
mod shrink;
mod slip_account;
mod slip_case;
mod slip_gen;
mod slip_lists;
mod slip_parts;
mod slip_reading;
mod slip_shrink;
mod tally;
mod undo_calls;
mod undo_case;
mod undo_checks;
mod undo_gen;
mod undo_parts;

// rustyline's own modules: line_buffer, undo, kill_ring, layout, and of keymap what build.rs cuts out.
include!(concat!(env!("OUT_DIR"), "/rustyline.rs"));

use std::process::ExitCode;
use std::time::Instant;

const DEFAULT: u64 = 1_600_000;

/// From here on a call must have been seen with every number that it can give.
const ENOUGH: u64 = 1_120_000;

/// So many comparisons from a seed, each input told before its call or not; or the account of the first difference.
type Part = fn(u64, u64, bool, &mut tally::Tally) -> Result<(), String>;

fn main() -> ExitCode {
    let mut words = std::env::args().skip(1).map(|word| word.parse::<u64>());
    let (Ok(n), Ok(seed)) = (words.next().unwrap_or(Ok(DEFAULT)), words.next().unwrap_or(Ok(1))) else {
        eprintln!("usage: differential/run [N] [SEED]");
        return ExitCode::from(2);
    };
    // Each input is told before its call: for a library that ends the program.
    let trace = std::env::var_os("DIFFERENTIAL_TRACE").is_some();
    // Where the recorded answers are written.
    let crates = std::env::var_os("DIFFERENTIAL_RECORD");
    if crates.is_some() {
        if n < ENOUGH {
            eprintln!("differential/record: N is {n}, and at least {ENOUGH} to have each call with every number");
            return ExitCode::from(2);
        }
        record::start(seed);
    }
    let began = Instant::now();
    let mut tally = tally::Tally::new();
    let share = n / 8;
    let parts: [Part; 5] = [line_parts::run, log_parts::run, edit_parts::run, undo_parts::run, ring_parts::run];
    let compared = parts
        .iter()
        .try_for_each(|part| part(share, seed, trace, &mut tally).inspect(|()| record::next_part()))
        .and_then(|()| session_parts::run(share, seed, trace, &mut tally).inspect(|_| record::next_part()))
        .and_then(|sessions| Ok((sessions, key_parts::run(share, seed, trace, &mut tally)?)))
        .inspect(|_| record::next_part())
        .and_then(|both| slip_parts::run(n - 7 * share, seed, trace, &mut tally).map(|()| both));
    let (sessions, keys) = match compared {
        Ok(both) => both,
        Err(account) => {
            print!("N {n}, seed {seed}: {account}");
            return ExitCode::FAILURE;
        }
    };
    if let Some(Err(error)) = crates.map(|crates| record::write(crates.as_ref(), n, seed)) {
        println!("the recorded answers could not be written: {error}");
        return ExitCode::FAILURE;
    }
    tally.print();
    let session_parts::Counts { sessions, calls, due, conclusions } = sessions;
    println!("{sessions} sessions of {calls} calls; at the end of {due} demand 3 is due, {conclusions} conclusions");
    let key_parts::Counts { keys, lists, due, conclusions } = keys;
    println!("{keys} keys, {lists} drawn lists; at the end of {due} demand 3 is due, {conclusions} conclusions");
    let [tab, cr, newline] = oracle::control_widths();
    println!("the Rust's width of U+0009, \\r, \\n: {tab}, {cr}, {newline}");
    println!("{n} comparisons, seed {seed}, no difference, {:.1} s", began.elapsed().as_secs_f64());
    let gaps = if n >= ENOUGH { tally.gaps() } else { Vec::new() };
    gaps.iter().for_each(|gap| println!("{gap}"));
    if gaps.is_empty() { ExitCode::SUCCESS } else { ExitCode::FAILURE }
}
