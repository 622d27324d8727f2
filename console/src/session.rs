//! A session: commands are read, done and answered.
use crate::commands::{new_room, Call, Command, Does};
use crate::mistakes::Mistake;
use crate::params::Args;
use crate::{help, parse, show};
use std::io::{self, BufRead, Write};
use std::str;
use tulofewa::{EditLine, Room};

const PROMPT: &str = "> ";
/// What begins the answer to bad input.
const MISTAKE: &str = "! ";
/// The longest line that is taken, with its end: room for two texts, each of their characters an escape.
const LONGEST: usize = 131_072;
/// As much is kept of a longer one, to be shown.
const SHOWN: usize = 40;
/// A terminal that edits the line itself hands over as many bytes of it, and cuts off what comes behind.
const CUT: usize = 4_095;
const GREETING: &str = "The catalogue edit line. One call to a line: help lists them, quit ends.";

pub struct Session<W> {
    line: EditLine,
    out: W,
    /// Lines that were not understood.
    pub mistakes: usize,
}

impl<W: Write> Session<W> {
    pub fn new(out: W) -> io::Result<Session<W>> {
        let line = EditLine::new(Room::default()).map_err(io::Error::other)?;
        Ok(Session { line, out, mistakes: 0 })
    }

    /// Reads to the end of the input or to `quit`. At a terminal there is a prompt; a script's lines are written to the
    /// output as they come, so that it reads as a dialogue.
    pub fn run(&mut self, mut input: impl BufRead, terminal: bool) -> io::Result<()> {
        if terminal {
            writeln!(self.out, "{GREETING}")?;
        }
        loop {
            if terminal {
                write!(self.out, "{PROMPT}")?;
            }
            self.out.flush()?;
            let Some((bytes, len)) = read_line(&mut input)? else { break };
            let line = without_line_end(&bytes);
            if !terminal {
                self.echo(line)?;
            }
            if len > LONGEST {
                self.mistake(&Mistake::Overlong(len, LONGEST))?;
            } else if terminal && line.len() >= CUT {
                self.mistake(&Mistake::Cut(CUT))?;
            } else if !self.answer(line)? {
                return self.out.flush();
            }
        }
        // The line of the last prompt is left.
        if terminal {
            writeln!(self.out)?;
        }
        self.out.flush()
    }

    /// Comments and blank lines as they are, others behind the prompt.
    fn echo(&mut self, line: &[u8]) -> io::Result<()> {
        let prompt = if str::from_utf8(line).is_ok_and(parse::is_idle) { "" } else { PROMPT };
        writeln!(self.out, "{prompt}{}", show::visible(line))
    }

    /// Does what a line asks for. Does the session go on?
    fn answer(&mut self, line: &[u8]) -> io::Result<bool> {
        let asked = match str::from_utf8(line) {
            Ok(line) if parse::is_idle(line) => return Ok(true),
            Ok(line) => parse::command(line),
            Err(e) => {
                let place = e.valid_up_to();
                Err(Mistake::NotUtf8(line.get(place).copied().unwrap_or_default(), place))
            }
        };
        match asked {
            Ok((command, args)) => self.obey(command, &args),
            Err(mistake) => {
                self.mistake(&mistake)?;
                Ok(true)
            }
        }
    }

    fn mistake(&mut self, mistake: &Mistake<'_>) -> io::Result<()> {
        self.mistakes = self.mistakes.saturating_add(1);
        writeln!(self.out, "{MISTAKE}{mistake}")
    }

    fn obey(&mut self, command: &Command, args: &Args) -> io::Result<bool> {
        match command.does {
            Does::Call(call) | Does::Movement(_, Some(call)) => self.call(call, args)?,
            Does::Room if args.sizes.is_empty() => show::room(&self.line, &mut self.out)?,
            Does::Room => self.call(new_room, args)?,
            Does::Show => show::all(&self.line, &mut self.out)?,
            Does::Help => match args.command {
                Some(command) => help::explain(command, &mut self.out)?,
                None => help::list(&mut self.out)?,
            },
            Does::Quit => return Ok(false),
            // not understood alone
            Does::Movement(_, None) => {}
        }
        Ok(true)
    }

    /// Makes a call, and tells what it says and what it has changed.
    fn call(&mut self, call: Call, args: &Args) -> io::Result<()> {
        let before = self.line.clone();
        let said = call(&mut self.line, args);
        writeln!(self.out, "{said}")?;
        show::changed(&before, &self.line, &mut self.out)
    }
}

/// The next line with its end, and how many bytes it has: of one over the limit only its beginning is kept.
fn read_line(input: &mut impl BufRead) -> io::Result<Option<(Vec<u8>, usize)>> {
    let mut line = Vec::new();
    let mut len: usize = 0;
    loop {
        let bytes = match input.fill_buf() {
            Err(e) if e.kind() == io::ErrorKind::Interrupted => continue,
            bytes => bytes?,
        };
        let end = bytes.iter().position(|byte| *byte == b'\n');
        let taken = end.map_or(bytes.len(), |end| end.saturating_add(1));
        len = len.saturating_add(taken);
        let kept = if len > LONGEST { SHOWN } else { LONGEST };
        line.extend(bytes.iter().take(taken).take(kept.saturating_sub(line.len())));
        line.truncate(kept);
        let none = bytes.is_empty();
        input.consume(taken);
        if none || end.is_some() {
            return Ok((len > 0).then_some((line, len)));
        }
    }
}

/// A line ends with \n or \r\n; the last one may lack it.
fn without_line_end(line: &[u8]) -> &[u8] {
    let line = line.strip_suffix(b"\n").unwrap_or(line);
    line.strip_suffix(b"\r").unwrap_or(line)
}

#[cfg(test)]
mod tests {
    use super::*;

    fn told(input: &str, terminal: bool) -> String {
        let mut out = Vec::new();
        Session::new(&mut out).unwrap().run(input.as_bytes(), terminal).unwrap();
        String::from_utf8(out).unwrap()
    }

    /// At a terminal the lines that are typed can be seen there, and the shell's prompt needs a line of its own.
    #[test]
    fn at_a_terminal() {
        assert_eq!(told("undo\n\n# x\n", true), format!("{GREETING}\n> 1 nothing\n> > > \n"));
        assert_eq!(told("undo\nquit\n", true), format!("{GREETING}\n> 1 nothing\n> "));
    }

    #[test]
    fn as_a_script() {
        assert_eq!(told("undo\n\n# x\n", false), "> undo\n1 nothing\n\n# x\n");
        assert_eq!(told("undo\nquit\n", false), "> undo\n1 nothing\n> quit\n");
    }
}
