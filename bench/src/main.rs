//! Times the library, beside rustyline's unchanged code and by itself: `bench [RUNS] [TABLE]..`, started by bench/run.
mod apart;
mod batches;
mod compared;
mod editor;
// The declarations of the C interface stand once, in the host crate; `include/check` holds them against the source.
#[allow(dead_code)]
#[path = "../../host/src/ffi.rs"]
mod ffi;
mod inputs;
mod keys;
mod library;
mod rows;
mod rustyline;
mod scenes;
mod sizes;
mod slips;
mod tables;
mod timing;

// rustyline's own modules: line_buffer, undo, kill_ring, layout, and of keymap what build.rs cuts out.
include!(concat!(env!("OUT_DIR"), "/rustyline.rs"));

use std::process::{Command, ExitCode, Stdio};

use timing::{Figure, TIMINGS};

#[derive(Clone, Copy, PartialEq)]
enum Table {
    Rustyline,
    Growth,
    Scan,
    Undo,
    Keys,
    Slips,
}
use Table::*;

#[rustfmt::skip]
const TABLES: [(&str, Table); 6] = [
    ("rustyline", Rustyline), ("growth", Growth), ("scan", Scan), ("undo", Undo), ("keys", Keys), ("slips", Slips),
];

/// Tables whose figures are measured together, and the word by which this program is told to measure them.
struct Sheet {
    word: &'static str,
    measure: fn() -> Vec<Figure>,
}

const FIRST: Sheet = Sheet { word: "rustyline", measure: || compared::measure(false) };
const FIRST_TWO: Sheet = Sheet { word: "growth", measure: || compared::measure(true) };
const SCAN: Sheet = Sheet { word: "scan", measure: apart::measure_scan };
const UNDO: Sheet = Sheet { word: "undo", measure: apart::measure_undo };
const KEYS: Sheet = Sheet { word: "keys", measure: keys::measure };
const SLIPS: Sheet = Sheet { word: "slips", measure: slips::measure };
const SHEETS: [Sheet; 6] = [FIRST, FIRST_TWO, SCAN, UNDO, KEYS, SLIPS];

/// In a run of this program: the figures, one to a line.
fn tell(word: &str) {
    let sheet = SHEETS.into_iter().find(|sheet| sheet.word == word).expect("a sheet's word");
    for Figure { median, least, most } in (sheet.measure)() {
        println!("{median} {least} {most}");
    }
}

/// The figures of a run of this program by itself. None where it fails: then it has said why.
fn run(sheet: &Sheet) -> Option<Vec<Figure>> {
    let program = std::env::current_exe().expect("this program");
    let mut figures = Command::new(program);
    figures.args(["figures", sheet.word]).env("RUST_BACKTRACE", "0").stderr(Stdio::inherit());
    let output = figures.output().expect("a run of this program");
    let read = |line: &str| {
        let numbers: Vec<f64> = line.split(' ').map(|word| word.parse().expect("a number")).collect();
        Figure { median: numbers[0], least: numbers[1], most: numbers[2] }
    };
    let lines = String::from_utf8(output.stdout).expect("numbers");
    output.status.success().then(|| lines.lines().map(read).collect())
}

/// So many runs, one after the other, put together.
fn figures(sheet: &Sheet, runs: usize) -> Option<Vec<Figure>> {
    let all: Vec<Vec<Figure>> = (0..runs).map(|_| run(sheet)).collect::<Option<_>>()?;
    let column = |i: usize| all.iter().map(|run| run[i]).collect::<Vec<_>>();
    Some((0..all[0].len()).map(|i| Figure::of_runs(&column(i))).collect())
}

/// None where a run fails.
fn print(tables: &[Table], runs: usize) -> Option<()> {
    let asked = |table| tables.contains(&table);
    match runs {
        1 => println!("Medians of {TIMINGS} timings, with the least and the most in brackets."),
        _ => println!(
            "Medians of {runs} runs, each of {TIMINGS} timings; the least and the most of the runs in brackets."
        ),
    }
    if asked(Rustyline) || asked(Growth) {
        let figures = figures(if asked(Growth) { &FIRST_TWO } else { &FIRST }, runs)?;
        if asked(Rustyline) {
            compared::print_first(asked(Growth), &figures);
        }
        if asked(Growth) {
            compared::print_growth(&figures);
        }
    }
    if asked(Scan) {
        apart::print_scan(&figures(&SCAN, runs)?);
    }
    if asked(Undo) {
        apart::print_undo(&figures(&UNDO, runs)?);
    }
    if asked(Keys) {
        keys::print(&figures(&KEYS, runs)?);
    }
    if asked(Slips) {
        slips::print(&figures(&SLIPS, runs)?);
    }
    Some(())
}

/// The number of runs and the tables that are asked for: one run and all tables where none is.
fn asked(words: &[String]) -> Option<(usize, Vec<Table>)> {
    let runs = words.first().and_then(|word| word.parse().ok()).filter(|runs| *runs > 0);
    let named = &words[usize::from(runs.is_some())..];
    let table = |word: &String| TABLES.iter().find(|(name, _)| name == word).map(|(_, table)| *table);
    let tables: Vec<Table> = named.iter().map(table).collect::<Option<_>>()?;
    let all = TABLES.map(|(_, table)| table).to_vec();
    Some((runs.unwrap_or(1), if tables.is_empty() { all } else { tables }))
}

fn main() -> ExitCode {
    let words: Vec<String> = std::env::args().skip(1).collect();
    if let [first, word] = &words[..]
        && first == "figures"
    {
        tell(word);
        return ExitCode::SUCCESS;
    }
    let Some((runs, tables)) = asked(&words) else {
        eprintln!("usage: bench/run [RUNS] [rustyline] [growth] [scan] [undo] [keys] [slips]");
        return ExitCode::from(2);
    };
    print(&tables, runs).map_or(ExitCode::FAILURE, |()| ExitCode::SUCCESS)
}
