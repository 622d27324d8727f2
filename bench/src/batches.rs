//! Batches of calls: the driver of both sides.
use std::hint::black_box;

use crate::editor::Editor;
use crate::inputs::{ENGLISH, TYPED, text, typed};
use crate::keymap::{At, Word};
use crate::line_buffer::WordAction;

/// The calls of a batch, one after the other. A number of calls goes in front, then comes a repeat count.
#[derive(Clone, Copy)]
pub enum Batch {
    Type,
    Forward(usize, u16),
    Backward(usize, u16),
    WordBack(usize, u16),
    WordOn(usize, u16),
    LineUp(usize, u16),
    LineDown(usize, u16),
    CopyUp(usize, u16),
    MoveTo(usize, u16),
    EndOfInput(usize),
    UpperWord(usize),
    TransposeWords(usize, u16),
    TransposeChars(usize),
    KillWordAndUndo(usize),
    KillWord,
    KillBuffer,
    Delete,
    Backspace,
    Update,
    Replace,
    /// As many copies of a letter as the size says.
    YankMany,
    Indent,
    Dedent,
    Group(usize),
    /// As many units as the size says, one by one.
    UndoEach,
    /// The same in one call.
    UndoAll,
    Cancel,
    InsertNothing(usize),
    LastInsert(usize),
    RingKill(usize),
    RingYank(usize),
}
use Batch::*;

/// How many calls a batch made, and how many of them were answered with 0.
#[derive(Clone, Copy, PartialEq, Eq)]
pub struct Played {
    pub calls: usize,
    pub done: usize,
}

/// The same call so many times, one after the other.
fn times<E>(calls: usize, e: &mut E, call: impl Fn(&mut E) -> bool) -> Played {
    let mut done = 0;
    for _ in 0..calls {
        done += usize::from(black_box(call(black_box(e))));
    }
    Played { calls, done }
}

/// The text that the calls of a batch are given, or the characters that are typed.
pub fn given(batch: Batch, size: usize) -> String {
    match batch {
        Type => typed(TYPED).collect(),
        Update | Replace | RingKill(_) => text(ENGLISH, size),
        YankMany => "a".into(),
        _ => String::new(),
    }
}

/// The calls of a batch on a scene of a size.
pub fn play<E: Editor>(batch: Batch, size: usize, given: &str, e: &mut E) -> Played {
    let units = || u16::try_from(size).expect("a repeat count");
    match batch {
        Type => {
            let done = given.chars().map(|ch| usize::from(black_box(black_box(&mut *e).insert(ch)))).sum();
            Played { calls: TYPED, done }
        }
        Forward(calls, n) => times(calls, e, |e| e.move_forward(n)),
        Backward(calls, n) => times(calls, e, |e| e.move_backward(n)),
        WordBack(calls, n) => times(calls, e, |e| e.move_to_prev_word(Word::Emacs, n)),
        WordOn(calls, n) => times(calls, e, |e| e.move_to_next_word(At::AfterEnd, Word::Emacs, n)),
        LineUp(calls, n) => times(calls, e, |e| e.move_to_line_up(n)),
        LineDown(calls, n) => times(calls, e, |e| e.move_to_line_down(n)),
        CopyUp(calls, n) => times(calls, e, |e| black_box(e.copy_lines_up(n)).is_some()),
        MoveTo(calls, n) => times(calls, e, |e| e.move_to('a', n)),
        EndOfInput(calls) => times(calls, e, |e| e.is_end_of_input()),
        UpperWord(calls) => times(calls, e, |e| e.edit_word(WordAction::Uppercase)),
        TransposeWords(calls, n) => times(calls, e, |e| e.transpose_words(n)),
        TransposeChars(calls) => times(calls, e, |e| e.transpose_chars()),
        KillWordAndUndo(calls) => times(calls, e, |e| e.delete_prev_word(Word::Emacs, 1) & e.undo(1)),
        KillWord => times(1, e, |e| e.delete_prev_word(Word::Emacs, 1)),
        KillBuffer => times(1, e, |e| e.kill_buffer()),
        Delete => times(1, e, |e| e.delete(1)),
        Backspace => times(1, e, |e| e.backspace(1)),
        Update => times(1, e, |e| e.update(given)),
        Replace => times(1, e, |e| e.replace(0, size, given)),
        YankMany => times(1, e, |e| e.yank(given, units())),
        Indent => times(1, e, |e| e.indent(1, false)),
        Dedent => times(1, e, |e| e.indent(1, true)),
        Group(calls) => times(calls, e, |e| e.begin() & e.insert('a') & e.end()),
        UndoEach => times(size, e, |e| e.undo(1)),
        UndoAll => times(1, e, |e| e.undo(units())),
        Cancel => times(1, e, |e| e.cancel(0)),
        InsertNothing(calls) => times(calls, e, |e| e.insert_nothing()),
        LastInsert(calls) => times(calls, e, |e| black_box(e.last_insert()).is_some()),
        RingKill(calls) => times(calls, e, |e| e.ring_reset() & e.ring_kill(given)),
        RingYank(calls) => times(calls, e, |e| e.ring_yank().is_some() & e.ring_yank_pop().is_some()),
    }
}
