//! The calls that are lent a text and do not write: each with its parameters, the numbers that it can give, the
//! library's entry and the Rust's method; and the comparison of the two.
use std::panic::{AssertUnwindSafe, catch_unwind};

use crate::checks;
use crate::ffi::{self, Line, LineAnswer};
use crate::lent::Lent;
use crate::line_buffer::LineBuffer;
use crate::oracle::{self, Outcome, done};
use crate::record;

#[derive(Clone, Copy, Debug, PartialEq, Eq)]
pub enum Param {
    N,
    Pos,
    Prompt,
    Mvt,
    At,
    Word,
    Search,
    Ch,
    Action,
    Size,
    Start,
    End,
    Buf,
    Amount,
    Dedent,
    Mark,
}
use Param::*;

/// The arguments of any call: each call takes its own.
#[derive(Clone, Debug, Default)]
pub struct Args {
    pub n: u16,
    pub pos: usize,
    pub prompt: usize,
    pub mvt: u32,
    pub at: u32,
    pub word: u32,
    pub search: u32,
    pub ch: u32,
    pub action: u32,
    pub size: usize,
    pub start: usize,
    pub end: usize,
    pub buf: Vec<u8>,
    pub amount: u8,
    pub dedent: u8,
    pub mark: usize,
}

/// Texts to put in that recording tells apart: none, one alphanumeric character of one or two bytes, another character,
/// two clusters, a cluster of two characters.
pub const SMALL_BUFS: [&str; 6] = ["", "a", "\u{DF}", "-", "ab", "e\u{301}"];
/// The length of the longest.
pub const SMALL_BUF: usize = 3;

impl Args {
    /// The value; of a text its length.
    pub fn get(&self, param: Param) -> usize {
        match param {
            N => self.n.into(),
            Pos => self.pos,
            Prompt => self.prompt,
            Mvt => self.mvt as usize,
            At => self.at as usize,
            Word => self.word as usize,
            Search => self.search as usize,
            Ch => self.ch as usize,
            Action => self.action as usize,
            Size => self.size,
            Start => self.start,
            End => self.end,
            Buf => self.buf.len(),
            Amount => self.amount.into(),
            Dedent => self.dedent.into(),
            Mark => self.mark,
        }
    }

    /// The same with another value, which fits the parameter's type; a text is the small one of this number.
    pub fn with(mut self, param: Param, value: usize) -> Args {
        match param {
            N => self.n = value as u16,
            Pos => self.pos = value,
            Prompt => self.prompt = value,
            Mvt => self.mvt = value as u32,
            At => self.at = value as u32,
            Word => self.word = value as u32,
            Search => self.search = value as u32,
            Ch => self.ch = value as u32,
            Action => self.action = value as u32,
            Size => self.size = value,
            Start => self.start = value,
            End => self.end = value,
            Buf => self.buf = SMALL_BUFS[value].into(),
            Amount => self.amount = value as u8,
            Dedent => self.dedent = value as u8,
            Mark => self.mark = value,
        }
        self
    }
}

pub const VI_CHAR_SEARCH: u32 = 5;
pub const VI_FIRST_PRINT: u32 = 6;
pub const BACKWARD_CHAR: u32 = 7;
pub const FORWARD_CHAR: u32 = 8;
pub const WHOLE_BUFFER: u32 = 11;

/// The parameters of a movement besides its code, and which of them it uses.
const MOVEMENT: [Param; 5] = [N, At, Word, Search, Ch];

fn movement_uses(mvt: u32) -> &'static [Param] {
    match mvt {
        3 => &[N, Word],
        4 => &[N, At, Word],
        VI_CHAR_SEARCH => &[N, Search, Ch],
        7..=10 => &[N],
        _ => &[],
    }
}

/// The parameters that a call with these uses when it is given these arguments.
pub fn uses(takes: &[Param], args: &Args) -> Vec<Param> {
    let moves = takes.contains(&Mvt);
    let used = |param: &Param| !moves || !MOVEMENT.contains(param) || movement_uses(args.mvt).contains(param);
    takes.iter().copied().filter(used).collect()
}

pub struct Entry {
    pub name: &'static str,
    pub takes: &'static [Param],
    pub gives: &'static [u32],
    ask: unsafe fn(*const u8, usize, Line, &Args) -> LineAnswer,
    pub rust: fn(&mut LineBuffer, &Args) -> Outcome,
}

impl Entry {
    /// The parameters that the call uses with these arguments.
    pub fn uses(&self, args: &Args) -> Vec<Param> {
        uses(self.takes, args)
    }
}

const PLAIN: &[u32] = &[0, 1, 2, 4, 5, 6];
const CODES: &[u32] = &[0, 1, 2, 3, 4, 5, 6];
const LINES: &[u32] = &[0, 1, 2, 4, 5, 6, 7];
const PLACE: &[u32] = &[0, 2, 4, 5, 6];

pub static ENTRIES: [Entry; 16] = [
    Entry {
        name: "tlf_line_next_pos",
        takes: &[N],
        gives: PLAIN,
        ask: |text, size, line, a| unsafe { ffi::tlf_line_next_pos(text, size, line, a.n) },
        rust: |l, a| l.next_pos(a.n).map(|pos| (pos, 0)),
    },
    Entry {
        name: "tlf_line_copy",
        takes: &[Mvt, N, At, Word, Search, Ch],
        gives: CODES,
        ask: |text, size, line, a| unsafe {
            ffi::tlf_line_copy(text, size, line, a.mvt, a.n, a.at, a.word, a.search, a.ch)
        },
        rust: |l, a| oracle::copy(l, &oracle::movement(a)),
    },
    Entry {
        name: "tlf_line_is_cursor_at_end",
        takes: &[],
        gives: PLAIN,
        ask: |text, size, line, _| unsafe { ffi::tlf_line_is_cursor_at_end(text, size, line) },
        rust: |l, _| done(l.is_cursor_at_end()),
    },
    Entry {
        name: "tlf_line_is_end_of_input",
        takes: &[],
        gives: PLAIN,
        ask: |text, size, line, _| unsafe { ffi::tlf_line_is_end_of_input(text, size, line) },
        rust: |l, _| done(l.is_end_of_input()),
    },
    Entry {
        name: "tlf_line_set_pos",
        takes: &[Pos],
        gives: PLACE,
        ask: |text, size, line, a| unsafe { ffi::tlf_line_set_pos(text, size, line, a.pos) },
        rust: |l, a| {
            l.set_pos(a.pos);
            done(true)
        },
    },
    Entry {
        name: "tlf_line_move_forward",
        takes: &[N],
        gives: PLAIN,
        ask: |text, size, line, a| unsafe { ffi::tlf_line_move_forward(text, size, line, a.n) },
        rust: |l, a| done(l.move_forward(a.n)),
    },
    Entry {
        name: "tlf_line_move_backward",
        takes: &[N],
        gives: PLAIN,
        ask: |text, size, line, a| unsafe { ffi::tlf_line_move_backward(text, size, line, a.n) },
        rust: |l, a| done(l.move_backward(a.n)),
    },
    Entry {
        name: "tlf_line_move_buffer_start",
        takes: &[],
        gives: PLAIN,
        ask: |text, size, line, _| unsafe { ffi::tlf_line_move_buffer_start(text, size, line) },
        rust: |l, _| done(l.move_buffer_start()),
    },
    Entry {
        name: "tlf_line_move_buffer_end",
        takes: &[],
        gives: PLAIN,
        ask: |text, size, line, _| unsafe { ffi::tlf_line_move_buffer_end(text, size, line) },
        rust: |l, _| done(l.move_buffer_end()),
    },
    Entry {
        name: "tlf_line_move_home",
        takes: &[],
        gives: PLAIN,
        ask: |text, size, line, _| unsafe { ffi::tlf_line_move_home(text, size, line) },
        rust: |l, _| done(l.move_home()),
    },
    Entry {
        name: "tlf_line_move_end",
        takes: &[],
        gives: PLAIN,
        ask: |text, size, line, _| unsafe { ffi::tlf_line_move_end(text, size, line) },
        rust: |l, _| done(l.move_end()),
    },
    Entry {
        name: "tlf_line_move_to_prev_word",
        takes: &[Word, N],
        gives: CODES,
        ask: |text, size, line, a| unsafe { ffi::tlf_line_move_to_prev_word(text, size, line, a.word, a.n) },
        rust: |l, a| done(l.move_to_prev_word(oracle::word(a.word), a.n)),
    },
    Entry {
        name: "tlf_line_move_to_next_word",
        takes: &[At, Word, N],
        gives: CODES,
        ask: |text, size, line, a| unsafe { ffi::tlf_line_move_to_next_word(text, size, line, a.at, a.word, a.n) },
        rust: |l, a| done(l.move_to_next_word(oracle::at(a.at), oracle::word(a.word), a.n)),
    },
    Entry {
        name: "tlf_line_move_to_line_up",
        takes: &[N, Prompt],
        gives: LINES,
        ask: |text, size, line, a| unsafe { ffi::tlf_line_move_to_line_up(text, size, line, a.n, a.prompt) },
        rust: |l, a| oracle::line_move(l, a.prompt, |l, layout| l.move_to_line_up(a.n, layout)),
    },
    Entry {
        name: "tlf_line_move_to_line_down",
        takes: &[N, Prompt],
        gives: LINES,
        ask: |text, size, line, a| unsafe { ffi::tlf_line_move_to_line_down(text, size, line, a.n, a.prompt) },
        rust: |l, a| oracle::line_move(l, a.prompt, |l, layout| l.move_to_line_down(a.n, layout)),
    },
    Entry {
        name: "tlf_line_move_to",
        takes: &[Search, Ch, N],
        gives: CODES,
        ask: |text, size, line, a| unsafe { ffi::tlf_line_move_to(text, size, line, a.search, a.ch, a.n) },
        rust: |l, a| done(l.move_to(oracle::search(a.search, a.ch), a.n)),
    },
];

/// A lent text with its used length, and the Rust's line of it where it is a text. Many calls share one.
pub struct Case {
    pub lent: Lent,
    pub len: usize,
    rust: Option<LineBuffer>,
}

impl Case {
    pub fn new(buffer: &[u8], len: usize) -> Case {
        let text = buffer.get(..len).filter(|text| checks::is_text(text));
        let rust = text.map(|text| oracle::line_of(text, 0));
        Case { lent: Lent::new(buffer), len, rust }
    }
}

/// What the library answered, and what it should have: `None` where the Rust panics and no check foresaw it.
pub struct Difference {
    pub got: LineAnswer,
    pub changed: Option<isize>,
    pub expected: Option<LineAnswer>,
}

/// The answer that is due: a check's number with the line as it was, else what the Rust decides.
fn expected(entry: &Entry, case: &mut Case, line: Line, args: &Args) -> Option<LineAnswer> {
    let Case { lent, len, rust } = case;
    let text = rust.as_ref().map(|_| &lent.bytes()[..*len]);
    let input = checks::LineInput { size: lent.size(), line, text, uses: &entry.uses(args), args };
    if let Some(number) = checks::line_call(&input, || oracle::first_print(rust.as_mut()?)) {
        return Some(LineAnswer { number, from: 0, to: 0, line });
    }
    let rust = rust.as_mut()?;
    rust.set_pos(line.cursor);
    let outcome = catch_unwind(AssertUnwindSafe(|| (entry.rust)(rust, args))).ok()?;
    let (from, to) = outcome.unwrap_or((0, 0));
    let line = Line { len: line.len, cursor: rust.pos() };
    Some(LineAnswer { number: outcome.is_none().into(), from, to, line })
}

/// The answer that both give, or how they differ: the whole of it counts, and that no byte in and around the lent
/// buffer has changed.
pub fn compare(entry: &Entry, case: &mut Case, cursor: usize, args: &Args) -> Result<LineAnswer, Difference> {
    let line = Line { len: case.len, cursor };
    let size = case.lent.size();
    let got = unsafe { (entry.ask)(case.lent.pointer(), size, line, args) };
    let changed = case.lent.changed();
    match expected(entry, case, line, args) {
        Some(answer) if answer == got && changed.is_none() => {
            let arguments = entry.takes.iter().map(|&param| args.get(param)).collect();
            let lent = record::Lent { text: case.lent.bytes(), line, arguments, ..record::Lent::default() };
            record::line_call(entry.name, lent, &answer);
            Ok(got)
        }
        expected => Err(Difference { got, changed, expected }),
    }
}
