//! The library's side: the entries of the C interface, lent the largest buffers. A call is the entry alone, with the
//! state handed in and taken back; `EditLine` of the host crate would add its own work.
use crate::editor::{Editor, List, State};
use crate::ffi::{self, Line, Log, Ring, Used};
use crate::keymap::{At, Word};
use crate::line_buffer::WordAction;
use crate::sizes::{RECORDS, SLOT, SLOTS, TEXT, TEXTS};

pub struct Library {
    text: Vec<u8>,
    records: Vec<u8>,
    texts: Vec<u8>,
    slots: Vec<u8>,
    lens: Vec<u8>,
    line: Line,
    log: Log,
    ring: Ring,
}

// The calls, by what they are lent. The buffers are allocations of their own, so none overlaps another.

/// T: the text, to be read.
macro_rules! look {
    ($self:ident, $call:ident $(, $own:expr)*) => {
        // SAFETY: one buffer, with its length.
        unsafe { ffi::$call($self.text.as_ptr(), $self.text.len(), $self.line $(, $own)*) }
    };
}

/// T, with the line that comes back.
macro_rules! moved {
    ($self:ident, $($call:tt)*) => {{
        let answer = look!($self, $($call)*);
        $self.line = answer.line;
        answer.number == 0
    }};
}

/// E: the text and the log, to be written; U: the log to be read (`as_ptr`).
macro_rules! edit {
    ($self:ident, $pointer:ident, $call:ident $(, $own:expr)*) => {{
        let (text, text_len) = ($self.text.as_mut_ptr(), $self.text.len());
        let (records, records_len) = ($self.records.$pointer(), $self.records.len());
        let (texts, texts_len) = ($self.texts.$pointer(), $self.texts.len());
        let (line, log) = ($self.line, $self.log);
        // SAFETY: three buffers, each with its length; a text given lies apart from them.
        let answer =
            unsafe { ffi::$call(text, text_len, records, records_len, texts, texts_len, line, log $(, $own)*) };
        $self.line = answer.line;
        $self.log = answer.log;
        answer.number == 0
    }};
}

/// L: the log.
macro_rules! log {
    ($self:ident, $call:ident $(, $own:expr)*) => {{
        let (records, records_len) = ($self.records.as_mut_ptr(), $self.records.len());
        let (texts, texts_len) = ($self.texts.as_mut_ptr(), $self.texts.len());
        // SAFETY: two buffers, each with its length; a text given lies apart from them.
        let answer = unsafe { ffi::$call(records, records_len, texts, texts_len, $self.log $(, $own)*) };
        $self.log = answer.log;
        answer
    }};
}

/// R: the ring.
macro_rules! ring {
    ($self:ident, $call:ident $(, $own:expr)*) => {{
        let (slots, slots_len) = ($self.slots.as_mut_ptr(), $self.slots.len());
        let (lens, lens_len) = ($self.lens.as_mut_ptr(), $self.lens.len());
        // SAFETY: two buffers, each with its length, and a record; a text given lies apart from them.
        unsafe { ffi::$call(slots, slots_len, lens, lens_len, &mut $self.ring $(, $own)*) }
    }};
}

/// For copy and last_insert the text between the two places is copied, as the Rust does.
fn copied(text: &[u8]) -> String {
    // SAFETY: a call has found that the text is UTF-8, and its places are boundaries of characters.
    unsafe { String::from_utf8_unchecked(text.to_vec()) }
}

impl Library {
    /// A list of the log from these used lengths on.
    fn list(&self, from: Used, used: Used) -> List {
        List {
            records: self.records[from.records..][..used.records].to_vec(),
            texts: self.texts[from.texts..][..used.texts].to_vec(),
        }
    }

    fn slot_len(&self, slot: usize) -> usize {
        usize::from(u16::from_le_bytes([self.lens[2 * slot], self.lens[2 * slot + 1]]))
    }

    fn slot(&self, slot: usize) -> Vec<u8> {
        self.slots[slot * SLOT..][..self.slot_len(slot)].to_vec()
    }
}

impl Editor for Library {
    fn new(text: &str) -> Library {
        let mut buffer = vec![0; TEXT];
        buffer[..text.len()].copy_from_slice(text.as_bytes());
        let mut ring = Ring::default();
        // SAFETY: a record to be written.
        assert_eq!(unsafe { ffi::tlf_ring_new(&mut ring, SLOTS) }, 0);
        Library {
            text: buffer,
            records: vec![0; RECORDS],
            texts: vec![0; TEXTS],
            slots: vec![0; SLOTS * SLOT],
            lens: vec![0; SLOTS * 2],
            line: Line { len: text.len(), cursor: text.len() },
            // SAFETY: nothing is lent.
            log: unsafe { ffi::tlf_log_new() },
            ring,
        }
    }

    fn set_cursor(&mut self, cursor: usize) {
        self.line.cursor = cursor;
    }

    fn restore(&mut self, from: &Library) {
        self.text.copy_from_slice(&from.text);
        self.line = from.line;
        self.take_log(from);
        self.slots.copy_from_slice(&from.slots);
        self.lens.copy_from_slice(&from.lens);
        self.ring = from.ring;
    }

    fn take_log(&mut self, from: &Library) {
        self.records.copy_from_slice(&from.records);
        self.texts.copy_from_slice(&from.texts);
        self.log = from.log;
    }

    fn state(&self) -> State {
        State {
            text: self.text[..self.line.len].to_vec(),
            cursor: self.line.cursor,
            undo: self.list(Used::default(), self.log.undo),
            redo: self.list(self.log.undo, self.log.redo),
            level: self.log.level,
            slots: (0..self.ring.count).map(|slot| self.slot(slot)).collect(),
        }
    }

    fn insert(&mut self, ch: char) -> bool {
        edit!(self, as_mut_ptr, tlf_line_insert, ch.into(), 1)
    }

    fn yank(&mut self, buf: &str, n: u16) -> bool {
        edit!(self, as_mut_ptr, tlf_line_yank, buf.as_ptr(), buf.len(), n)
    }

    fn update(&mut self, buf: &str) -> bool {
        edit!(self, as_mut_ptr, tlf_line_update, buf.as_ptr(), buf.len(), buf.len())
    }

    fn backspace(&mut self, n: u16) -> bool {
        edit!(self, as_mut_ptr, tlf_line_backspace, n)
    }

    fn delete(&mut self, n: u16) -> bool {
        edit!(self, as_mut_ptr, tlf_line_delete, n)
    }

    fn kill_buffer(&mut self) -> bool {
        edit!(self, as_mut_ptr, tlf_line_kill_buffer)
    }

    fn delete_prev_word(&mut self, word: Word, n: u16) -> bool {
        edit!(self, as_mut_ptr, tlf_line_delete_prev_word, word as u32, n)
    }

    fn edit_word(&mut self, action: WordAction) -> bool {
        edit!(self, as_mut_ptr, tlf_line_edit_word, action as u32)
    }

    fn transpose_chars(&mut self) -> bool {
        edit!(self, as_mut_ptr, tlf_line_transpose_chars)
    }

    fn transpose_words(&mut self, n: u16) -> bool {
        edit!(self, as_mut_ptr, tlf_line_transpose_words, n)
    }

    fn replace(&mut self, start: usize, end: usize, buf: &str) -> bool {
        edit!(self, as_mut_ptr, tlf_line_replace, start, end, buf.as_ptr(), buf.len())
    }

    fn indent(&mut self, amount: u8, dedent: bool) -> bool {
        let whole_buffer = 11;
        edit!(self, as_mut_ptr, tlf_line_indent, whole_buffer, 0, 0, 0, 0, 0, amount, dedent.into())
    }

    fn move_forward(&mut self, n: u16) -> bool {
        moved!(self, tlf_line_move_forward, n)
    }

    fn move_backward(&mut self, n: u16) -> bool {
        moved!(self, tlf_line_move_backward, n)
    }

    fn move_to_prev_word(&mut self, word: Word, n: u16) -> bool {
        moved!(self, tlf_line_move_to_prev_word, word as u32, n)
    }

    fn move_to_next_word(&mut self, at: At, word: Word, n: u16) -> bool {
        moved!(self, tlf_line_move_to_next_word, at as u32, word as u32, n)
    }

    fn move_to_line_up(&mut self, n: u16) -> bool {
        moved!(self, tlf_line_move_to_line_up, n, 0)
    }

    fn move_to_line_down(&mut self, n: u16) -> bool {
        moved!(self, tlf_line_move_to_line_down, n, 0)
    }

    fn move_to(&mut self, ch: char, n: u16) -> bool {
        let forward = 0;
        moved!(self, tlf_line_move_to, forward, ch.into(), n)
    }

    fn is_end_of_input(&mut self) -> bool {
        moved!(self, tlf_line_is_end_of_input)
    }

    fn copy_lines_up(&mut self, n: u16) -> Option<String> {
        let line_up = 9;
        let answer = look!(self, tlf_line_copy, line_up, n, 0, 0, 0, 0);
        (answer.number == 0).then(|| copied(&self.text[answer.from..answer.to]))
    }

    fn begin(&mut self) -> bool {
        log!(self, tlf_log_begin).number == 0
    }

    fn end(&mut self) -> bool {
        log!(self, tlf_log_end).number == 0
    }

    fn undo(&mut self, n: u16) -> bool {
        edit!(self, as_ptr, tlf_log_undo, n)
    }

    fn insert_nothing(&mut self) -> bool {
        log!(self, tlf_log_insert_str, 0, "".as_ptr(), 0).number == 0
    }

    fn last_insert(&mut self) -> Option<String> {
        let answer = log!(self, tlf_log_last_insert);
        (answer.number == 0).then(|| copied(&self.texts[answer.from..answer.to]))
    }

    fn cancel(&mut self, mark: usize) -> bool {
        edit!(self, as_ptr, tlf_log_cancel, mark)
    }

    fn ring_reset(&mut self) -> bool {
        ring!(self, tlf_ring_reset).number == 0
    }

    fn ring_kill(&mut self, text: &str) -> bool {
        let append = 0;
        ring!(self, tlf_ring_kill, text.as_ptr(), text.len(), append).number == 0
    }

    fn ring_yank(&mut self) -> Option<usize> {
        let answer = ring!(self, tlf_ring_yank);
        (answer.number == 0).then(|| self.slot_len(answer.slot))
    }

    fn ring_yank_pop(&mut self) -> Option<(usize, usize)> {
        let answer = ring!(self, tlf_ring_yank_pop);
        (answer.number == 0).then(|| (answer.size, self.slot_len(answer.slot)))
    }
}
