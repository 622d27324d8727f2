//! The fourteen movements in document 01's order, and the motions by their names in the Rust.
use super::{call, Call, Command, Does};
use crate::answers::outcome;
use crate::params::{Args, Param, AT, CH, N, POS, PROMPT, SEARCH, WORD};
use tulofewa::Movement;

const fn moves(
    name: &'static str,
    takes: &'static [Param],
    about: &'static str,
    movement: fn(&Args) -> Movement,
    alone: Call,
) -> Command {
    Command { name, takes, about, does: Does::Movement(movement, Some(alone)) }
}

/// A movement for which there is no motion.
const fn stays(name: &'static str, about: &'static str, movement: fn(&Args) -> Movement) -> Command {
    Command { name, takes: &[], about, does: Does::Movement(movement, None) }
}

pub const COMMANDS: &[Command] = &[
    stays("whole_line", "the whole line; not alone", |_| Movement::WholeLine),
    moves("line_start", &[], "to the start of the line", |_| Movement::BeginningOfLine, |l, _| outcome(l.move_home())),
    moves("line_end", &[], "to the end of the line", |_| Movement::EndOfLine, |l, _| outcome(l.move_end())),
    moves(
        "word_back",
        &[N, WORD],
        "n words back",
        |a| Movement::BackwardWord(a.n, a.word),
        |l, a| outcome(l.move_to_prev_word(a.word, a.n)),
    ),
    moves(
        "word_forward",
        &[N, AT, WORD],
        "n words on",
        |a| Movement::ForwardWord(a.n, a.at, a.word),
        |l, a| outcome(l.move_to_next_word(a.at, a.word, a.n)),
    ),
    moves(
        "search",
        &[SEARCH, CH, N],
        "to the n-th match of a character",
        |a| Movement::ViCharSearch(a.n, a.char_search()),
        |l, a| outcome(l.move_to(a.char_search(), a.n)),
    ),
    stays("first_print", "Vi's ^; not alone", |_| Movement::ViFirstPrint),
    moves("back", &[N], "n clusters back", |a| Movement::BackwardChar(a.n), |l, a| outcome(l.move_backward(a.n))),
    moves("forward", &[N], "n clusters on", |a| Movement::ForwardChar(a.n), |l, a| outcome(l.move_forward(a.n))),
    moves(
        "line_up",
        &[N],
        "n lines up, without a prompt",
        |a| Movement::LineUp(a.n),
        |l, a| outcome(l.move_to_line_up(a.n, 0)),
    ),
    moves(
        "line_down",
        &[N],
        "n lines down, without a prompt",
        |a| Movement::LineDown(a.n),
        |l, a| outcome(l.move_to_line_down(a.n, 0)),
    ),
    stays("whole_buffer", "the whole text; not alone", |_| Movement::WholeBuffer),
    moves(
        "buffer_start",
        &[],
        "to the start of the text",
        |_| Movement::BeginningOfBuffer,
        |l, _| outcome(l.move_buffer_start()),
    ),
    moves("buffer_end", &[], "to the end of the text", |_| Movement::EndOfBuffer, |l, _| outcome(l.move_buffer_end())),
];

pub const MOTIONS: &[Command] = &[
    call("set_pos", &[POS], "to a place", |l, a| outcome(l.set_pos(a.pos))),
    call("move_forward", &[N], "n clusters on", |l, a| outcome(l.move_forward(a.n))),
    call("move_backward", &[N], "n clusters back", |l, a| outcome(l.move_backward(a.n))),
    call("move_buffer_start", &[], "to the start of the text", |l, _| outcome(l.move_buffer_start())),
    call("move_buffer_end", &[], "to the end of the text", |l, _| outcome(l.move_buffer_end())),
    call("move_home", &[], "to the start of the line", |l, _| outcome(l.move_home())),
    call("move_end", &[], "to the end of the line", |l, _| outcome(l.move_end())),
    call("move_to_prev_word", &[WORD, N], "n words back", |l, a| outcome(l.move_to_prev_word(a.word, a.n))),
    call("move_to_next_word", &[AT, WORD, N], "n words on", |l, a| outcome(l.move_to_next_word(a.at, a.word, a.n))),
    call("move_to_line_up", &[N, PROMPT], "n lines up; the first line starts at column prompt", |l, a| {
        outcome(l.move_to_line_up(a.n, a.prompt))
    }),
    call("move_to_line_down", &[N, PROMPT], "n lines down, likewise", |l, a| {
        outcome(l.move_to_line_down(a.n, a.prompt))
    }),
    call("move_to", &[SEARCH, CH, N], "to the n-th match of a character", |l, a| {
        outcome(l.move_to(a.char_search(), a.n))
    }),
];
