//! The edit line at a terminal: keys come in, frames go out.
mod editor;
mod frame;
mod panel;
mod table;
mod tty;

use editor::{Editor, Step, PROMPT};
use frame::{Screen, View};
use signal_hook::consts::{SIGCONT, SIGTSTP, SIGWINCH};
use std::env;
use std::io::{self, IsTerminal, Write};
use tty::{Event, Out, Tty};
use tulofewa::Keys;

pub use table::help;

/// Where frames can go: standard output, or standard error where the lines go elsewhere.
fn out() -> Option<Out> {
    if io::stdout().is_terminal() {
        Some(Out::Stdout)
    } else if io::stderr().is_terminal() {
        Some(Out::Stderr)
    } else {
        None
    }
}

/// Is there a terminal to be typed at, and one that can draw?
pub fn is_there() -> bool {
    let dumb = env::var_os("TERM").is_none_or(|term| term.is_empty() || term == "dumb");
    io::stdin().is_terminal() && out().is_some() && !dumb
}

/// Edits lines until the user leaves, and prints each that is finished.
pub fn run() -> io::Result<()> {
    let out = out().ok_or_else(|| io::Error::other("no terminal"))?;
    let mut terminal = Terminal {
        tty: Tty::open(out)?,
        out,
        screen: Screen::new(out.size()),
        keys: Keys::new(),
        editor: Editor::new().map_err(io::Error::other)?,
    };
    let mut clear = Vec::new();
    loop {
        terminal.draw(&clear)?;
        clear.clear();
        match terminal.tty.wait()? {
            Event::Bytes(bytes) => {
                for input in terminal.keys.feed(&bytes) {
                    match terminal.editor.take(input) {
                        Step::Stay => {}
                        Step::Finished(text) => terminal.finish(&text)?,
                        Step::Leave => return terminal.leave(),
                        Step::List => terminal.list()?,
                        Step::Redraw => clear = terminal.screen.cleared(),
                        Step::Suspend => terminal.obey(SIGTSTP)?,
                    }
                }
            }
            Event::Signals(signals) => {
                for signal in signals {
                    match signal {
                        SIGWINCH => clear = terminal.screen.resized(terminal.out.size()),
                        SIGCONT => terminal.go_on()?,
                        _ => terminal.obey(signal)?,
                    }
                }
            }
            Event::End => return terminal.leave(),
        }
    }
}

struct Terminal {
    tty: Tty,
    out: Out,
    screen: Screen,
    keys: Keys,
    editor: Editor,
}

impl Terminal {
    /// A frame, in one write, behind what clears the screen.
    fn draw(&mut self, clear: &[u8]) -> io::Result<()> {
        let held = names(&[self.editor.begun(), self.keys.held()].concat());
        let bell = self.editor.bell();
        let line = self.editor.line();
        let status = if held.is_empty() { self.editor.status() } else { &held };
        let panel = self.editor.panel();
        let view = View { prompt: PROMPT, text: line.text(), cursor: line.cursor(), status, panel: &panel, bell };
        let frame = self.screen.frame(&view);
        self.out.write(&[clear, &frame].concat())
    }

    /// The line stays on the screen, and is printed below it, or where standard output goes.
    fn finish(&mut self, text: &str) -> io::Result<()> {
        let mut bytes = self.screen.finished(PROMPT, text);
        if matches!(self.out, Out::Stdout) {
            bytes.extend(text.replace('\n', "\r\n").bytes().chain(*b"\r\n"));
            return self.out.write(&bytes);
        }
        self.out.write(&bytes)?;
        let mut stdout = io::stdout().lock();
        writeln!(stdout, "{text}")?;
        stdout.flush()
    }

    /// The keys, listed where the frame stood; the next one comes below them.
    fn list(&mut self) -> io::Result<()> {
        let mut bytes = self.screen.gone();
        bytes.extend(help().join("\r\n").bytes().chain(*b"\r\n"));
        self.out.write(&bytes)
    }

    /// The cursor goes below the line, which stays; the terminal is put back as the value is dropped.
    fn leave(&mut self) -> io::Result<()> {
        let line = self.editor.line();
        let bytes = self.screen.finished(PROMPT, line.text());
        self.out.write(&bytes)
    }

    /// A signal's own effect, below the line: the program ends, or stops and goes on.
    fn obey(&mut self, signal: i32) -> io::Result<()> {
        // The terminal may have gone.
        let _ = self.leave();
        self.tty.obey(signal)?;
        self.screen = Screen::new(self.out.size());
        Ok(())
    }

    /// Goes on after a stop that it did not see come: others may have written to the terminal and changed its size.
    fn go_on(&mut self) -> io::Result<()> {
        self.screen = Screen::new(self.out.size());
        self.tty.raw()
    }
}

/// The bytes of a key that is not whole, by names.
fn names(held: &[u8]) -> String {
    let name = |byte: &u8| match byte {
        0x18 => "C-x ".to_owned(),
        0x1B => "ESC ".to_owned(),
        0x21..=0x7E => format!("{} ", char::from(*byte)),
        _ => format!("0x{byte:02x} "),
    };
    let names: String = held.iter().map(name).collect();
    if names.is_empty() {
        names
    } else {
        names + "..."
    }
}
