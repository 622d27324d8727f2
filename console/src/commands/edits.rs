//! The edits, in the order of `host/`.
use super::{call, Command};
use crate::answers::{outcome, places};
use crate::params::{
    ACTION, AMOUNT, AT, CH, DEDENT, END, MOVEMENT, N, SEARCH, START, TEXT, UPDATE_POS, WORD, YANK_SIZE,
};

pub const COMMANDS: &[Command] = &[
    call("update", &[TEXT, UPDATE_POS], "the whole text becomes another, the cursor pos", |l, a| {
        outcome(l.update(&a.text, a.cursor_in_text()))
    }),
    call("insert", &[CH, N], "puts a character in n times", |l, a| outcome(l.insert(a.ch, a.n))),
    call("yank", &[TEXT, N], "puts a text in n times", |l, a| outcome(l.yank(&a.text, a.n))),
    call("yank_pop", &[YANK_SIZE, TEXT], "puts a text in for the yank_size bytes before the cursor", |l, a| {
        outcome(l.yank_pop(a.size, &a.text))
    }),
    call("yank_killed", &[N], "ring_yank and yank in one", |l, a| outcome(l.yank_killed(a.n))),
    call("yank_pop_killed", &[], "ring_yank_pop and yank_pop in one", |l, _| outcome(l.yank_pop_killed())),
    call("delete", &[N], "cuts n clusters from the cursor on", |l, a| {
        let before = l.text().to_owned();
        places(l.delete(a.n), &before)
    }),
    call("backspace", &[N], "cuts n clusters before the cursor", |l, a| outcome(l.backspace(a.n))),
    call("kill_line", &[], "cuts to the end of the line, or the newline at the cursor", |l, _| outcome(l.kill_line())),
    call("kill_buffer", &[], "cuts to the end of the text", |l, _| outcome(l.kill_buffer())),
    call("discard_line", &[], "cuts back to the start of the line, or the newline before the cursor", |l, _| {
        outcome(l.discard_line())
    }),
    call("discard_buffer", &[], "cuts back to the start of the text", |l, _| outcome(l.discard_buffer())),
    call("transpose_chars", &[], "exchanges the clusters before and at the cursor", |l, _| {
        outcome(l.transpose_chars())
    }),
    call("delete_prev_word", &[WORD, N], "cuts n words back", |l, a| outcome(l.delete_prev_word(a.word, a.n))),
    call("delete_word", &[AT, WORD, N], "cuts n words forward", |l, a| outcome(l.delete_word(a.at, a.word, a.n))),
    call("delete_to", &[SEARCH, CH, N], "cuts to the n-th match of a character", |l, a| {
        outcome(l.delete_to(a.char_search(), a.n))
    }),
    call("edit_word", &[ACTION], "gives the next word another case", |l, a| outcome(l.edit_word(a.action))),
    call("transpose_words", &[N], "exchanges the n-th word on and the n-th before that one", |l, a| {
        outcome(l.transpose_words(a.n))
    }),
    call("replace", &[START, END, TEXT], "puts a text in for what stands between two places", |l, a| {
        outcome(l.replace(a.start..a.end, &a.text))
    }),
    call("delete_range", &[START, END], "cuts what stands between two places", |l, a| {
        outcome(l.delete_range(a.start..a.end))
    }),
    call("kill", &[MOVEMENT], "cuts what a movement goes over", |l, a| outcome(l.kill(a.movement()))),
    call("kill_to_ring", &[MOVEMENT], "kill and ring_kill in one", |l, a| outcome(l.kill_to_ring(a.movement()))),
    call("indent", &[MOVEMENT, AMOUNT, DEDENT], "indents or dedents the lines that a movement goes over", |l, a| {
        outcome(l.indent(a.movement(), a.amount, a.dedent))
    }),
];
