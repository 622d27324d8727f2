//! The terminal: raw mode with its way back, bytes and signals as they come, the size.
use rustix::io::{poll, read, write, Errno, PollFd, PollFlags};
use rustix::termios::{cfmakeraw, tcgetattr, tcgetwinsize, tcsetattr, OptionalActions, Termios};
use signal_hook::consts::{SIGCONT, SIGHUP, SIGINT, SIGQUIT, SIGTERM, SIGTSTP, SIGWINCH};
use signal_hook::iterator::backend::SignalDelivery;
use signal_hook::iterator::exfiltrator::SignalOnly;
use signal_hook::low_level::emulate_default_handler;
use std::io::{self, Stdin};
use std::mem;
use std::os::unix::net::UnixStream;
use std::panic;
use std::sync::{Mutex, PoisonError};

/// Pastes come in brackets.
const BRACKETS: &[u8] = b"\x1b[?2004h";
/// As it was: no brackets, the cursor seen.
const PLAIN: &[u8] = b"\x1b[?2004l\x1b[?25h";

/// The modes that the terminal had; there are some while it is raw.
static BEFORE: Mutex<Option<Termios>> = Mutex::new(None);

/// Where the frames go.
#[derive(Clone, Copy)]
pub enum Out {
    Stdout,
    Stderr,
}

impl Out {
    /// One write, but where the terminal takes less.
    pub fn write(self, mut bytes: &[u8]) -> io::Result<()> {
        while !bytes.is_empty() {
            let written = match self {
                Out::Stdout => write(io::stdout(), bytes),
                Out::Stderr => write(io::stderr(), bytes),
            };
            match written {
                Err(Errno::INTR) => {}
                written => bytes = bytes.get(written?..).unwrap_or_default(),
            }
        }
        Ok(())
    }

    /// Columns and rows; 80 and 24 where the terminal does not say.
    pub fn size(self) -> (usize, usize) {
        let size = match self {
            Out::Stdout => tcgetwinsize(io::stdout()),
            Out::Stderr => tcgetwinsize(io::stderr()),
        };
        match size {
            Ok(size) if size.ws_col > 0 && size.ws_row > 0 => (size.ws_col.into(), size.ws_row.into()),
            _ => (80, 24),
        }
    }
}

/// What comes.
pub enum Event {
    Bytes(Vec<u8>),
    Signals(Vec<i32>),
    /// The terminal has gone.
    End,
}

/// The terminal in raw mode. It is put back when this is dropped, at a panic, and where a signal ends the program.
pub struct Tty {
    stdin: Stdin,
    out: Out,
    signals: SignalDelivery<UnixStream, SignalOnly>,
    /// Signals that came while the program was stopped.
    later: Vec<i32>,
}

impl Tty {
    pub fn open(out: Out) -> io::Result<Tty> {
        let (read, write) = UnixStream::pair()?;
        let caught = [SIGCONT, SIGHUP, SIGINT, SIGQUIT, SIGTERM, SIGTSTP, SIGWINCH];
        let signals = SignalDelivery::with_pipe(read, write, SignalOnly, caught)?;
        let tty = Tty { stdin: io::stdin(), out, signals, later: Vec::new() };
        let message = panic::take_hook();
        panic::set_hook(Box::new(move |panic| {
            restore(out);
            message(panic);
        }));
        tty.raw()?;
        Ok(tty)
    }

    /// Makes the terminal raw: each byte comes as it is typed, and none is echoed or obeyed.
    pub fn raw(&self) -> io::Result<()> {
        let before = tcgetattr(&self.stdin)?;
        let mut raw = before;
        cfmakeraw(&mut raw);
        let mut kept = BEFORE.lock().unwrap_or_else(PoisonError::into_inner);
        kept.get_or_insert(before);
        tcsetattr(&self.stdin, OptionalActions::Now, &raw)?;
        self.out.write(BRACKETS)
    }

    /// The terminal as it was.
    pub fn restore(&self) {
        restore(self.out);
    }

    /// Waits for bytes or signals.
    pub fn wait(&mut self) -> io::Result<Event> {
        if !self.later.is_empty() {
            return Ok(Event::Signals(mem::take(&mut self.later)));
        }
        loop {
            let mut fds =
                [PollFd::new(&self.stdin, PollFlags::IN), PollFd::new(self.signals.get_read(), PollFlags::IN)];
            match poll(&mut fds, -1) {
                Err(Errno::INTR) => continue,
                polled => polled?,
            };
            let [bytes, signals] = fds.map(|fd| !fd.revents().is_empty());
            if signals {
                return Ok(Event::Signals(self.signals.pending().collect()));
            }
            if bytes {
                let mut buffer = vec![0; 4_096];
                match read(&self.stdin, &mut buffer) {
                    Err(Errno::INTR | Errno::AGAIN) => {}
                    Ok(0) | Err(Errno::IO) => return Ok(Event::End),
                    len => {
                        buffer.truncate(len?);
                        return Ok(Event::Bytes(buffer));
                    }
                }
            }
        }
    }

    /// Does what a signal does by itself, with the terminal as it was: it ends the program, or stops it until it is
    /// continued.
    pub fn obey(&mut self, signal: i32) -> io::Result<()> {
        self.restore();
        emulate_default_handler(signal)?;
        self.later = self.signals.pending().filter(|signal| *signal != SIGCONT).collect();
        self.raw()
    }
}

impl Drop for Tty {
    fn drop(&mut self) {
        self.restore();
    }
}

/// Nothing can be done where this fails: the terminal has gone.
fn restore(out: Out) {
    let mut before = BEFORE.lock().unwrap_or_else(PoisonError::into_inner);
    if let Some(before) = before.take() {
        let _ = out.write(PLAIN);
        let _ = tcsetattr(io::stdin(), OptionalActions::Now, &before);
    }
}
