//! The calls that are lent a text and a log and write to both: each with its parameters, the numbers that it can give,
//! the library's entry and the Rust's method.
use crate::ffi::{self, EditAnswer, Line, Log};
use crate::line_buffer::LineBuffer;
use crate::line_calls::{Args, Param, uses};
use crate::listeners::Ears;
use crate::log_calls::Raw;
use crate::oracle::{self, Outcome, done};
use Param::*;

/// What the library is lent: the three buffers, the states, and the text among the arguments.
pub struct Input {
    pub text: Raw,
    pub records: Raw,
    pub texts: Raw,
    pub line: Line,
    pub log: Log,
    pub buf: Raw,
}

pub struct Entry {
    pub name: &'static str,
    pub takes: &'static [Param],
    pub gives: &'static [u32],
    pub ask: unsafe fn(&Input, &Args) -> EditAnswer,
    pub rust: fn(&mut LineBuffer, &Args, &mut Ears) -> Outcome,
}

impl Entry {
    /// The parameters that the call uses with these arguments.
    pub fn uses(&self, args: &Args) -> Vec<Param> {
        uses(self.takes, args)
    }
}

/// The library's entry with what it is lent (`$i`), then the call's own.
macro_rules! ask {
    ($entry:ident, $i:ident, $a:pat $(, $own:expr)*) => {
        |$i, $a| unsafe {
            let Input { text, records, texts, line, log, .. } = *$i;
            ffi::$entry(text.0, text.1, records.0, records.1, texts.0, texts.1, line, log $(, $own)*)
        }
    };
}

const PLAIN: &[u32] = &[0, 1, 2, 4, 5, 6, 8, 10];
const CODES: &[u32] = &[0, 1, 2, 3, 4, 5, 6, 8, 10];
const ALWAYS: &[u32] = &[0, 2, 4, 5, 6, 8, 10];
const LONGER: &[u32] = &[0, 1, 2, 4, 5, 6, 8, 9, 10];
const ALWAYS_LONGER: &[u32] = &[0, 2, 4, 5, 6, 8, 9, 10];
const INDENT: &[u32] = &[0, 2, 3, 4, 5, 6, 8, 9, 10];

/// The text to put in, which check 4 has passed.
fn buf(args: &Args) -> &str {
    std::str::from_utf8(&args.buf).expect("check 4")
}

pub static ENTRIES: [Entry; 20] = [
    Entry {
        name: "tlf_line_backspace",
        takes: &[N],
        gives: PLAIN,
        ask: ask!(tlf_line_backspace, i, a, a.n),
        rust: |l, a, ears| done(l.backspace(a.n, ears)),
    },
    Entry {
        name: "tlf_line_kill_line",
        takes: &[],
        gives: PLAIN,
        ask: ask!(tlf_line_kill_line, i, _),
        rust: |l, _, ears| done(l.kill_line(ears)),
    },
    Entry {
        name: "tlf_line_kill_buffer",
        takes: &[],
        gives: PLAIN,
        ask: ask!(tlf_line_kill_buffer, i, _),
        rust: |l, _, ears| done(l.kill_buffer(ears)),
    },
    Entry {
        name: "tlf_line_discard_line",
        takes: &[],
        gives: PLAIN,
        ask: ask!(tlf_line_discard_line, i, _),
        rust: |l, _, ears| done(l.discard_line(ears)),
    },
    Entry {
        name: "tlf_line_discard_buffer",
        takes: &[],
        gives: PLAIN,
        ask: ask!(tlf_line_discard_buffer, i, _),
        rust: |l, _, ears| done(l.discard_buffer(ears)),
    },
    Entry {
        name: "tlf_line_delete_prev_word",
        takes: &[Word, N],
        gives: CODES,
        ask: ask!(tlf_line_delete_prev_word, i, a, a.word, a.n),
        rust: |l, a, ears| done(l.delete_prev_word(oracle::word(a.word), a.n, ears)),
    },
    Entry {
        name: "tlf_line_delete_word",
        takes: &[At, Word, N],
        gives: CODES,
        ask: ask!(tlf_line_delete_word, i, a, a.at, a.word, a.n),
        rust: |l, a, ears| done(l.delete_word(oracle::at(a.at), oracle::word(a.word), a.n, ears)),
    },
    Entry {
        name: "tlf_line_delete_to",
        takes: &[Search, Ch, N],
        gives: CODES,
        ask: ask!(tlf_line_delete_to, i, a, a.search, a.ch, a.n),
        rust: |l, a, ears| done(l.delete_to(oracle::search(a.search, a.ch), a.n, ears)),
    },
    Entry {
        name: "tlf_line_kill",
        takes: &[Mvt, N, At, Word, Search, Ch],
        gives: CODES,
        ask: ask!(tlf_line_kill, i, a, a.mvt, a.n, a.at, a.word, a.search, a.ch),
        rust: |l, a, ears| done(l.kill(&oracle::movement(a), ears)),
    },
    Entry {
        name: "tlf_line_delete",
        takes: &[N],
        gives: PLAIN,
        ask: ask!(tlf_line_delete, i, a, a.n),
        rust: |l, a, ears| {
            let from = l.pos();
            l.delete(a.n, ears).map(|cut| (from, from + cut.len()))
        },
    },
    Entry {
        name: "tlf_line_delete_range",
        takes: &[Start, End],
        gives: ALWAYS,
        ask: ask!(tlf_line_delete_range, i, a, a.start, a.end),
        rust: |l, a, ears| {
            l.delete_range(a.start..a.end, ears);
            done(true)
        },
    },
    Entry {
        name: "tlf_line_replace",
        takes: &[Start, End, Buf],
        gives: ALWAYS_LONGER,
        ask: ask!(tlf_line_replace, i, a, a.start, a.end, i.buf.0, i.buf.1),
        rust: |l, a, ears| {
            l.replace(a.start..a.end, buf(a), ears);
            done(true)
        },
    },
    Entry {
        name: "tlf_line_update",
        takes: &[Buf, Pos],
        gives: ALWAYS,
        ask: ask!(tlf_line_update, i, a, i.buf.0, i.buf.1, a.pos),
        rust: |l, a, ears| {
            l.update(buf(a), a.pos, ears);
            done(true)
        },
    },
    Entry {
        name: "tlf_line_insert",
        takes: &[Ch, N],
        gives: ALWAYS_LONGER,
        ask: ask!(tlf_line_insert, i, a, a.ch, a.n),
        rust: |l, a, ears| done(l.insert(oracle::character(a.ch), a.n, ears).is_some()),
    },
    Entry {
        name: "tlf_line_yank",
        takes: &[Buf, N],
        gives: LONGER,
        ask: ask!(tlf_line_yank, i, a, i.buf.0, i.buf.1, a.n),
        rust: |l, a, ears| done(l.yank(buf(a), a.n, ears).is_some()),
    },
    Entry {
        name: "tlf_line_yank_pop",
        takes: &[Size, Buf],
        gives: LONGER,
        ask: ask!(tlf_line_yank_pop, i, a, a.size, i.buf.0, i.buf.1),
        rust: |l, a, ears| done(l.yank_pop(a.size, buf(a), ears).is_some()),
    },
    Entry {
        name: "tlf_line_transpose_chars",
        takes: &[],
        gives: PLAIN,
        ask: ask!(tlf_line_transpose_chars, i, _),
        rust: |l, _, ears| done(l.transpose_chars(ears)),
    },
    Entry {
        name: "tlf_line_edit_word",
        takes: &[Action],
        gives: CODES,
        ask: ask!(tlf_line_edit_word, i, a, a.action),
        rust: |l, a, ears| done(l.edit_word(oracle::action(a.action), ears)),
    },
    Entry {
        name: "tlf_line_transpose_words",
        takes: &[N],
        gives: LONGER,
        ask: ask!(tlf_line_transpose_words, i, a, a.n),
        rust: |l, a, ears| done(l.transpose_words(a.n, ears)),
    },
    Entry {
        name: "tlf_line_indent",
        takes: &[Mvt, N, At, Word, Search, Ch, Amount, Dedent],
        gives: INDENT,
        ask: ask!(tlf_line_indent, i, a, a.mvt, a.n, a.at, a.word, a.search, a.ch, a.amount, a.dedent),
        rust: |l, a, ears| done(l.indent(&oracle::movement(a), a.amount, a.dedent != 0, ears)),
    },
];

/// The row of this call.
pub fn row(name: &str) -> usize {
    ENTRIES.iter().position(|entry| entry.name == name).expect(name)
}
