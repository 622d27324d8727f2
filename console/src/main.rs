//! The catalogue edit line: at a terminal by its keys, else by its calls, one to a line. README.md explains it.
// No input ends the program: nothing here may panic.
#![cfg_attr(not(test), deny(clippy::indexing_slicing, clippy::arithmetic_side_effects))]
#![cfg_attr(not(test), deny(clippy::unwrap_used, clippy::expect_used, clippy::panic))]

mod answers;
mod commands;
mod help;
mod mistakes;
mod nearest;
mod params;
mod parse;
mod session;
mod show;
mod terminal;

use session::Session;
use std::env;
use std::ffi::OsString;
use std::io::{self, BufWriter, IsTerminal, Write};
use std::process::ExitCode;

const USAGE: &str = "\
usage: console [--calls | --keys | --help]
  at a terminal the line is edited by keys; where standard input is none it is a script of calls
  --calls  the calls at a terminal too, one to a line
  --keys   lists the keys, and ends
";

fn main() -> ExitCode {
    let words: Vec<OsString> = env::args_os().skip(1).collect();
    let words: Vec<_> = words.iter().map(|word| word.to_str().unwrap_or_default()).collect();
    let done = match words.as_slice() {
        [] if terminal::is_there() => terminal::run().map(|()| ExitCode::SUCCESS),
        [] | ["--calls"] => calls(),
        ["--keys"] => print(&(terminal::help().join("\n") + "\n")),
        ["--help"] => print(USAGE),
        _ => {
            eprint!("{USAGE}");
            return ExitCode::from(2);
        }
    };
    match done {
        Ok(status) => status,
        // The reader has gone.
        Err(e) if e.kind() == io::ErrorKind::BrokenPipe => ExitCode::SUCCESS,
        Err(e) => {
            eprintln!("console: {e}");
            ExitCode::from(2)
        }
    }
}

fn print(text: &str) -> io::Result<ExitCode> {
    io::stdout().write_all(text.as_bytes())?;
    Ok(ExitCode::SUCCESS)
}

/// The calls: a script that has a line which is not understood ends with 1.
fn calls() -> io::Result<ExitCode> {
    let terminal = io::stdin().is_terminal();
    let mut session = Session::new(BufWriter::new(io::stdout().lock()))?;
    session.run(io::stdin().lock(), terminal)?;
    Ok(if terminal || session.mistakes == 0 { ExitCode::SUCCESS } else { ExitCode::FAILURE })
}
