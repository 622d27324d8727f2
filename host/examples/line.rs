//! An edit line at a terminal, with this crate alone: `stty` makes the terminal raw and puts it back.
//!
//!     cargo run --offline --example line
//!
//! Enter finishes the line, C-c and C-d on an empty line leave. The line has one row here; `console/` has one over several
//! rows, with a status row, pastes and signals.
use std::io::{self, Read, Write};
use std::process::{Command, Stdio};
use tulofewa::{key_count, width, EditLine, Input, Keys};

const PROMPT: &str = "> ";

/// The terminal in raw mode; dropped, it is as it was.
struct Raw(String);

/// `stty` for the terminal at standard input: what it prints.
fn stty(words: &[&str]) -> io::Result<String> {
    let output = Command::new("stty").args(words).stdin(Stdio::inherit()).output()?;
    if !output.status.success() {
        return Err(io::Error::other("standard input is no terminal"));
    }
    Ok(String::from_utf8_lossy(&output.stdout).trim().to_owned())
}

impl Raw {
    fn new() -> io::Result<Raw> {
        let before = stty(&["-g"])?;
        stty(&["raw", "-echo"])?;
        Ok(Raw(before))
    }
}

impl Drop for Raw {
    fn drop(&mut self) {
        let _ = stty(&[&self.0]);
    }
}

/// The line in its row, and the cursor in its cell.
fn draw(line: &EditLine) -> io::Result<()> {
    let before = line.as_str().get(..line.pos()).unwrap_or_default();
    let column = width(PROMPT, 0) + width(before, width(PROMPT, 0));
    write!(io::stdout(), "\r{PROMPT}{line}\x1b[K\r\x1b[{column}C")?;
    io::stdout().flush()
}

/// Reads a line; none where the user leaves.
fn read_line() -> io::Result<Option<String>> {
    let _raw = Raw::new()?;
    let mut line = EditLine::default();
    let mut keys = Keys::new();
    let mut bytes = [0; 256];
    loop {
        draw(&line)?;
        let count = io::stdin().read(&mut bytes)?;
        if count == 0 {
            return Ok(None);
        }
        for input in keys.feed(&bytes[..count]) {
            let Input::Key(key) = input else { continue };
            let (count, behind) = key_count(&key);
            let answer = match behind {
                b"\r" => return Ok(Some(line.into_string())),
                b"\x03" | b"\x04" if line.is_empty() => return Ok(None),
                b"\x7f" => line.backspace(count.unwrap_or(1)).map(drop),
                b"\x1b[D" => line.move_backward(count.unwrap_or(1)).map(drop),
                b"\x1b[C" => line.move_forward(count.unwrap_or(1)).map(drop),
                _ => line.key(&key).map(drop),
            };
            if answer.is_err() {
                print!("\x07");
            }
        }
    }
}

fn main() -> io::Result<()> {
    let line = read_line()?;
    println!();
    println!("{line:?}");
    Ok(())
}
