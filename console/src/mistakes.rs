//! Bad input to the console itself, each kind with its message. Nothing has changed.
use crate::commands::{all, Command};
use crate::nearest::nearest;
use crate::params::{either, grouped, Param, KEY_WORDS};
use crate::show::visible;
use std::fmt;

#[derive(Debug)]
pub enum Mistake<'a> {
    /// A line's bytes, and the most that are taken.
    Overlong(usize, usize),
    /// A line of as many bytes, as a terminal cuts it.
    Cut(usize),
    /// The first byte that is no part of a character, and its place.
    NotUtf8(u8, usize),
    NoCommand(&'a str),
    NoMovement(&'a str),
    /// A movement that no motion is for, alone.
    NotAlone(&'static Command),
    Missing(&'static Command, &'static Param),
    /// An argument that fits none of the parameters that are left.
    Unfit(&'static Command, &'a str, Vec<&'static Param>),
    Surplus(&'static Command, &'a str),
    Over(&'static Command, &'static Param, usize, &'a str),
    /// A word that is none of a key's.
    NoKeyWord(&'a str),
    Unclosed,
    Escape(String),
    /// Something stands right behind a closing quote.
    Touching(&'a str),
}

impl fmt::Display for Mistake<'_> {
    fn fmt(&self, f: &mut fmt::Formatter<'_>) -> fmt::Result {
        match self {
            Mistake::Overlong(len, most) => {
                write!(f, "the line has {} bytes, at most {} are taken", grouped(*len), grouped(*most))
            }
            Mistake::Cut(len) => {
                let len = grouped(*len);
                write!(f, "a terminal hands over {len} bytes of a line at most: its end may be missing; ./run < FILE takes it")
            }
            Mistake::NotUtf8(byte, place) => write!(f, "the line is not UTF-8: 0x{byte:02x} at place {place}"),
            Mistake::NoCommand(word) => {
                write!(f, "no command {}; {}", shown(word), hint(word, |_| true))
            }
            Mistake::NoMovement(word) => {
                write!(f, "no movement {}; {}", shown(word), hint(word, |command| command.movement().is_some()))
            }
            Mistake::NotAlone(command) => {
                write!(
                    f,
                    "{} does not move the cursor: it goes behind copy, kill, kill_to_ring or indent",
                    command.name
                )
            }
            Mistake::Missing(command, param) => {
                write!(f, "{}: {} is missing ({}); usage: {}", command.name, param.word, param.what(), command.usage())
            }
            Mistake::Unfit(command, word, params) => {
                let fit: Vec<_> = params.iter().map(|param| format!("{} is {}", param.word, param.what())).collect();
                write!(f, "{}: {} does not fit: {}", command.name, shown(word), fit.join("; "))
            }
            Mistake::Surplus(command, word) => {
                write!(f, "{}: {} is too much; usage: {}", command.name, shown(word), command.usage())
            }
            Mistake::Over(command, param, most, word) => {
                write!(f, "{}: {} is at most {}, not {}", command.name, param.word, grouped(*most), shown(word))
            }
            Mistake::NoKeyWord(word) => write!(f, "{} is no word of a key; those are {KEY_WORDS}", shown(word)),
            Mistake::Unclosed => f.write_str("a quote is not closed"),
            Mistake::Escape(escape) => {
                write!(f, "{} is no escape; those are \\n, \\t, \\r, \\\", \\\\ and \\u{{e9}}", shown(escape))
            }
            Mistake::Touching(word) => write!(f, "a blank is missing between a closing quote and {}", shown(word)),
        }
    }
}

/// As much of a word is shown.
const LONGEST: usize = 40;

fn shown(word: &str) -> String {
    match word.char_indices().nth(LONGEST) {
        Some((end, _)) => format!("{}...", shown(word.get(..end).unwrap_or_default())),
        None => visible(word.as_bytes()),
    }
}

/// The nearest names among some commands, or where to find them all.
fn hint(word: &str, among: fn(&Command) -> bool) -> String {
    let near = nearest(word, all().filter(|command| among(command)).map(|command| command.name));
    if near.is_empty() {
        "help lists them".to_owned()
    } else {
        format!("is it {}?", either(near.into_iter()))
    }
}
