//! rustyline's side: its own `LineBuffer`, with `can_growth(true)`, that tells its `Changeset` of its changes, and its
//! `KillRing`.
use crate::editor::{Editor, State};
use crate::keymap::{At, CharSearch, Movement, Word};
use crate::kill_ring::{KillRing, Mode, slots};
use crate::layout::{GraphemeClusterMode, Layout};
use crate::line_buffer::{LineBuffer, NoListener, WordAction};
use crate::sizes::{SLOTS, TEXT};
use crate::undo::{Changeset, lists};

pub struct Rustyline {
    line: LineBuffer,
    changes: Changeset,
    ring: KillRing,
    layout: Layout,
}

/// The same text with the same room behind it: a character put behind a copy costs what one put behind the text costs.
pub fn copied_text(text: &String) -> String {
    let mut copy = String::with_capacity(text.capacity());
    copy.push_str(text);
    copy
}

impl Editor for Rustyline {
    fn new(text: &str) -> Rustyline {
        let mut line = LineBuffer::with_capacity(TEXT).can_growth(true);
        line.update(text, text.len(), &mut NoListener);
        let layout = Layout::new(GraphemeClusterMode::Unicode);
        Rustyline { line, changes: Changeset::new(), ring: KillRing::new(SLOTS), layout }
    }

    fn set_cursor(&mut self, cursor: usize) {
        self.line.set_pos(cursor);
    }

    fn restore(&mut self, from: &Rustyline) {
        self.line.update(from.line.as_str(), from.line.pos(), &mut NoListener);
        self.take_log(from);
        self.ring = slots::copy(&from.ring);
    }

    fn take_log(&mut self, from: &Rustyline) {
        self.changes = lists::copy(&from.changes);
    }

    fn state(&self) -> State {
        let [undo, redo] = lists::lists(&self.changes);
        State {
            text: self.line.as_str().into(),
            cursor: self.line.pos(),
            undo,
            redo,
            level: lists::level(&self.changes),
            slots: slots::texts(&self.ring).iter().map(|text| text.as_bytes().to_vec()).collect(),
        }
    }

    fn insert(&mut self, ch: char) -> bool {
        self.line.insert(ch, 1, &mut self.changes).is_some()
    }

    fn yank(&mut self, buf: &str, n: u16) -> bool {
        self.line.yank(buf, n, &mut self.changes).is_some()
    }

    fn update(&mut self, buf: &str) -> bool {
        self.line.update(buf, buf.len(), &mut self.changes);
        true
    }

    fn backspace(&mut self, n: u16) -> bool {
        self.line.backspace(n, &mut self.changes)
    }

    fn delete(&mut self, n: u16) -> bool {
        self.line.delete(n, &mut self.changes).is_some()
    }

    fn kill_buffer(&mut self) -> bool {
        self.line.kill_buffer(&mut self.changes)
    }

    fn delete_prev_word(&mut self, word: Word, n: u16) -> bool {
        self.line.delete_prev_word(word, n, &mut self.changes)
    }

    fn edit_word(&mut self, action: WordAction) -> bool {
        self.line.edit_word(action, &mut self.changes)
    }

    fn transpose_chars(&mut self) -> bool {
        self.line.transpose_chars(&mut self.changes)
    }

    fn transpose_words(&mut self, n: u16) -> bool {
        self.line.transpose_words(n, &mut self.changes)
    }

    fn replace(&mut self, start: usize, end: usize, buf: &str) -> bool {
        self.line.replace(start..end, buf, &mut self.changes);
        true
    }

    fn indent(&mut self, amount: u8, dedent: bool) -> bool {
        self.line.indent(&Movement::WholeBuffer, amount, dedent, &mut self.changes)
    }

    fn move_forward(&mut self, n: u16) -> bool {
        self.line.move_forward(n)
    }

    fn move_backward(&mut self, n: u16) -> bool {
        self.line.move_backward(n)
    }

    fn move_to_prev_word(&mut self, word: Word, n: u16) -> bool {
        self.line.move_to_prev_word(word, n)
    }

    fn move_to_next_word(&mut self, at: At, word: Word, n: u16) -> bool {
        self.line.move_to_next_word(at, word, n)
    }

    fn move_to_line_up(&mut self, n: u16) -> bool {
        self.line.move_to_line_up(n, &self.layout)
    }

    fn move_to_line_down(&mut self, n: u16) -> bool {
        self.line.move_to_line_down(n, &self.layout)
    }

    fn move_to(&mut self, ch: char, n: u16) -> bool {
        self.line.move_to(CharSearch::Forward(ch), n)
    }

    fn is_end_of_input(&mut self) -> bool {
        self.line.is_end_of_input()
    }

    fn copy_lines_up(&mut self, n: u16) -> Option<String> {
        self.line.copy(&Movement::LineUp(n))
    }

    fn begin(&mut self) -> bool {
        self.changes.begin();
        true
    }

    fn end(&mut self) -> bool {
        self.changes.end()
    }

    fn undo(&mut self, n: u16) -> bool {
        self.changes.undo(&mut self.line, n)
    }

    fn insert_nothing(&mut self) -> bool {
        self.changes.insert_str(0, "");
        true
    }

    fn last_insert(&mut self) -> Option<String> {
        self.changes.last_insert()
    }

    fn cancel(&mut self, _: usize) -> bool {
        unreachable!("rustyline has no cancel")
    }

    fn ring_reset(&mut self) -> bool {
        self.ring.reset();
        true
    }

    fn ring_kill(&mut self, text: &str) -> bool {
        self.ring.kill(text, Mode::Append);
        true
    }

    fn ring_yank(&mut self) -> Option<usize> {
        self.ring.yank().map(String::len)
    }

    fn ring_yank_pop(&mut self) -> Option<(usize, usize)> {
        self.ring.yank_pop().map(|(before, text)| (before, text.len()))
    }
}
