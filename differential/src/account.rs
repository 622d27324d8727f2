//! A difference told to a reader.
use std::fmt::Write as _;

use crate::checks::first_character;
use crate::ffi::LineAnswer;
use crate::line_calls::{Args, Case, Difference, Entry, Param};

#[rustfmt::skip]
const WORDS: [&str; 15] = [
    "done", "nothing", "sizes", "code", "foreign", "place", "split", "prompt", "damaged", "full", "log full",
    "ring full", "misfit", "unbound", "page full",
];
#[rustfmt::skip]
const MOVEMENTS: [&str; 14] = [
    "WholeLine", "BeginningOfLine", "EndOfLine", "BackwardWord", "ForwardWord", "ViCharSearch", "ViFirstPrint",
    "BackwardChar", "ForwardChar", "LineUp", "LineDown", "WholeBuffer", "BeginningOfBuffer", "EndOfBuffer",
];
const RULES: [&str; 3] = ["Big", "Emacs", "Vi"];
const STOPS: [&str; 3] = ["Start", "BeforeEnd", "AfterEnd"];
const ACTIONS: [&str; 3] = ["Capitalize", "Lowercase", "Uppercase"];
const SEARCHES: [&str; 4] = ["Forward", "ForwardBefore", "Backward", "BackwardAfter"];

/// Bytes of a longer text that are shown.
const SHOWN: usize = 400;

/// Where the Rust has no answer.
pub const PANIC: &str = "expected   the Rust panics here, and no check of this harness foresees it\n";

/// The input: call, arguments, text with its cursor.
pub fn input(entry: &Entry, case: &Case, cursor: usize, args: &Args) -> String {
    let buffer = case.lent.bytes();
    let used = case.len.min(buffer.len());
    let mut out = String::new();
    let _ = writeln!(out, "call       {}", entry.name);
    let _ = writeln!(out, "arguments  {}", arguments(&entry.uses(args), args));
    let _ = writeln!(out, "text       {}", shown(&buffer[..used], cursor));
    let mark = if cursor <= used { ", shown as |" } else { "" };
    let _ = writeln!(out, "           C {}, used length {}, cursor {cursor}{mark}", buffer.len(), case.len);
    if used < buffer.len() {
        let _ = writeln!(out, "behind it  {}", shown(&buffer[used..], usize::MAX));
    }
    out
}

/// The two answers.
pub fn answers(difference: &Difference) -> String {
    let mut out = String::new();
    let _ = writeln!(out, "library    {}", answer(&difference.got));
    if let Some(place) = difference.changed {
        let _ = writeln!(out, "           and it wrote to place {place} from the buffer's start");
    }
    let _ = match &difference.expected {
        Some(due) => writeln!(out, "expected   {} ({})", answer(due), by(due.number)),
        None => write!(out, "{PANIC}"),
    };
    out
}

fn answer(answer: &LineAnswer) -> String {
    let LineAnswer { number, from, to, line } = answer;
    let word = word(*number);
    format!("{number} {word}, from {from}, to {to}, used length {}, cursor {}", line.len, line.cursor)
}

/// Who expects an answer of this number.
pub fn by(number: u32) -> String {
    if number < 2 { "the Rust".into() } else { format!("check {number}") }
}

/// Document 01's word for a number.
pub fn word(number: u32) -> &'static str {
    WORDS.get(number as usize).unwrap_or(&"no number of document 01")
}

fn arguments(uses: &[Param], args: &Args) -> String {
    let one = |&param: &Param| format!("{} {}", format!("{param:?}").to_lowercase(), value(param, args));
    if uses.is_empty() { "none".into() } else { uses.iter().map(one).collect::<Vec<_>>().join(", ") }
}

/// A number, with its name where it is a code or a character; a text.
pub fn value(param: Param, args: &Args) -> String {
    let number = args.get(param);
    let names: &[&str] = match param {
        Param::Mvt => &MOVEMENTS,
        Param::At => &STOPS,
        Param::Word => &RULES,
        Param::Search => &SEARCHES,
        Param::Action => &ACTIONS,
        Param::Ch => return format!("U+{number:04X}"),
        Param::Buf => return shown(&args.buf, usize::MAX),
        Param::Dedent => return format!("{number} ({})", if number == 0 { "indents" } else { "dedents" }),
        Param::N
        | Param::Pos
        | Param::Prompt
        | Param::Size
        | Param::Start
        | Param::End
        | Param::Amount
        | Param::Mark => {
            return number.to_string();
        }
    };
    format!("{number} ({})", names.get(number).unwrap_or(&"none"))
}

/// Bytes as a string with its cursor; of a long one the part around the cursor, or the front where there is none.
pub fn shown(bytes: &[u8], cursor: usize) -> String {
    let centre = if cursor <= bytes.len() { cursor } else { 0 };
    let end = bytes.len().min(SHOWN.max(centre + SHOWN / 2));
    let start = end.saturating_sub(SHOWN);
    let front = if start > 0 { format!("({start} bytes) ") } else { String::new() };
    let back = if end < bytes.len() { format!(" ({} bytes)", bytes.len() - end) } else { String::new() };
    format!("{front}\"{}\"{back}", escaped(&bytes[start..end], cursor.wrapping_sub(start)))
}

/// Characters outside ASCII as \u{}, bytes that are no character, or that the cursor splits, as \x.
fn escaped(bytes: &[u8], cursor: usize) -> String {
    let mut out = String::new();
    let mut i = 0;
    while i < bytes.len() {
        if i == cursor {
            out.push('|');
        }
        match first_character(&bytes[i..]) {
            Some((c, len)) if !(i + 1..i + len).contains(&cursor) => {
                out += &character(c);
                i += len;
            }
            _ => {
                let _ = write!(out, "\\x{:02X}", bytes[i]);
                i += 1;
            }
        }
    }
    if cursor == bytes.len() {
        out.push('|');
    }
    out
}

fn character(c: u32) -> String {
    match char::from_u32(c) {
        Some('|') => "\\|".into(),
        Some(c) if c == ' ' || c.is_ascii_graphic() || "\n\r\t".contains(c) => c.escape_default().to_string(),
        _ => format!("\\u{{{c:X}}}"),
    }
}
