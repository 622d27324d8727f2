//! The entries of the static library, as `include/tulofewa.h` has them and explains them. A buffer is a pointer and its
//! length; the state goes in by value and comes back in the answer. `include/check` holds this file against the source.

/// A text's used length, and the cursor.
#[repr(C)]
#[derive(Clone, Copy, Debug, Default, PartialEq, Eq)]
pub struct Line {
    /// The used length.
    pub len: usize,
    /// The cursor.
    pub cursor: usize,
}

/// A list's used lengths in the log's two buffers.
#[repr(C)]
#[derive(Clone, Copy, Debug, Default, PartialEq, Eq)]
pub struct Used {
    /// Bytes of its records.
    pub records: usize,
    /// Bytes of their texts.
    pub texts: usize,
}

/// A log's two lists, the redo list right behind the undo list in both buffers.
#[repr(C)]
#[derive(Clone, Copy, Debug, Default, PartialEq, Eq)]
pub struct Log {
    /// The undo list's used lengths.
    pub undo: Used,
    /// The redo list's.
    pub redo: Used,
    /// The level of open groups.
    pub level: usize,
}

/// A ring's record.
#[repr(C)]
#[derive(Clone, Copy, Debug, Default, PartialEq, Eq, Hash)]
pub struct Ring {
    /// The slots that there may be.
    pub size: usize,
    /// Those in use.
    pub count: usize,
    /// Where we are among them.
    pub index: usize,
    /// The last action: 0 kill, 1 yank, 2 other.
    pub action: usize,
    /// A yank's size, 0 after anything else.
    pub yanked: usize,
}

/// The answer of a call that is lent a text alone.
#[repr(C)]
#[derive(Clone, Copy, Debug, PartialEq, Eq)]
pub struct LineAnswer {
    /// What it says.
    pub number: u32,
    /// What it answers: a place, or a mark.
    pub from: usize,
    /// The other place.
    pub to: usize,
    /// The line afterwards.
    pub line: Line,
}

/// The answer of a call that is lent a log alone.
#[repr(C)]
#[derive(Clone, Copy, Debug, PartialEq, Eq)]
pub struct LogAnswer {
    /// What it says.
    pub number: u32,
    /// What it answers: a place, or a mark.
    pub from: usize,
    /// The other place.
    pub to: usize,
    /// The log afterwards.
    pub log: Log,
}

/// The answer of a call that is lent a text and a log.
#[repr(C)]
#[derive(Clone, Copy, Debug, PartialEq, Eq)]
pub struct EditAnswer {
    /// What it says.
    pub number: u32,
    /// What it answers: a place, or a mark.
    pub from: usize,
    /// The other place.
    pub to: usize,
    /// The line afterwards.
    pub line: Line,
    /// The log afterwards.
    pub log: Log,
}

/// The answer of a ring's call.
#[repr(C)]
#[derive(Clone, Copy, Debug, PartialEq, Eq)]
pub struct RingAnswer {
    /// What it says.
    pub number: u32,
    /// The slot that it answers.
    pub slot: usize,
    /// The size of the yank before.
    pub size: usize,
}

/// The answer of a key.
#[repr(C)]
#[derive(Clone, Copy, Debug, PartialEq, Eq)]
pub struct KeyAnswer {
    /// What it says.
    pub number: u32,
    /// What it answers: a place, or a mark.
    pub from: usize,
    /// The other place.
    pub to: usize,
    /// The line afterwards.
    pub line: Line,
    /// The log afterwards.
    pub log: Log,
    /// The ring's record afterwards.
    pub ring: Ring,
}

/// The answer of a call that is lent a text without a cursor.
#[repr(C)]
#[derive(Clone, Copy, Debug, PartialEq, Eq)]
pub struct ValueAnswer {
    /// What it says.
    pub number: u32,
    /// What it answers.
    pub value: usize,
}

/// E: a text and a log are lent, then come the call's own.
macro_rules! edits {
    ($($(#[$doc:meta])* $name:ident($($own:ident: $of:ty),*);)*) => {
        unsafe extern "C" {
            $($(#[$doc])* pub fn $name(
                text: *mut u8, text_len: usize, records: *mut u8, records_len: usize, texts: *mut u8, texts_len: usize,
                line: Line, log: Log $(, $own: $of)*
            ) -> EditAnswer;)*
        }
    };
}

edits! {
    /// The whole text becomes another.
    tlf_line_update(buf: *const u8, buf_len: usize, pos: usize);
    /// Puts a character in n times.
    tlf_line_insert(ch: u32, n: u16);
    /// Puts a text in n times.
    tlf_line_yank(buf: *const u8, buf_len: usize, n: u16);
    /// Puts a text in for the bytes before the cursor.
    tlf_line_yank_pop(yank_size: usize, buf: *const u8, buf_len: usize);
    /// Cuts n clusters from the cursor on, and answers the places.
    tlf_line_delete(n: u16);
    /// Cuts n clusters before the cursor.
    tlf_line_backspace(n: u16);
    /// Cuts to the end of the line, or the newline at the cursor.
    tlf_line_kill_line();
    /// Cuts to the end of the text.
    tlf_line_kill_buffer();
    /// Cuts back to the start of the line, or the newline before the cursor.
    tlf_line_discard_line();
    /// Cuts back to the start of the text.
    tlf_line_discard_buffer();
    /// Exchanges the clusters before and at the cursor.
    tlf_line_transpose_chars();
    /// Cuts n words back.
    tlf_line_delete_prev_word(word: u32, n: u16);
    /// Cuts n words forward.
    tlf_line_delete_word(at: u32, word: u32, n: u16);
    /// Cuts to the n-th match of a character.
    tlf_line_delete_to(search: u32, ch: u32, n: u16);
    /// Gives the next word another case.
    tlf_line_edit_word(action: u32);
    /// Exchanges the n-th word on and the n-th before that one.
    tlf_line_transpose_words(n: u16);
    /// Puts a text in for a range, as one record.
    tlf_line_replace(start: usize, end: usize, buf: *const u8, buf_len: usize);
    /// Cuts a range.
    tlf_line_delete_range(start: usize, end: usize);
    /// Cuts what a movement goes over.
    tlf_line_kill(mvt: u32, n: u16, at: u32, word: u32, search: u32, ch: u32);
    /// Indents or dedents the lines that a movement goes over.
    tlf_line_indent(mvt: u32, n: u16, at: u32, word: u32, search: u32, ch: u32, amount: u8, dedent: u8);
}

// T: a text is lent and not written.
#[rustfmt::skip]
unsafe extern "C" {
    /// The place n clusters on.
    pub fn tlf_line_next_pos(text: *const u8, text_len: usize, line: Line, n: u16) -> LineAnswer;
    /// The places between which a movement's text stands.
    pub fn tlf_line_copy(
        text: *const u8, text_len: usize, line: Line, mvt: u32, n: u16, at: u32, word: u32, search: u32, ch: u32,
    ) -> LineAnswer;
    /// Does the cursor stand at the text's end?
    pub fn tlf_line_is_cursor_at_end(text: *const u8, text_len: usize, line: Line) -> LineAnswer;
    /// Does only white space follow the cursor?
    pub fn tlf_line_is_end_of_input(text: *const u8, text_len: usize, line: Line) -> LineAnswer;
    /// The cursor goes to a place.
    pub fn tlf_line_set_pos(text: *const u8, text_len: usize, line: Line, pos: usize) -> LineAnswer;
    /// n clusters on.
    pub fn tlf_line_move_forward(text: *const u8, text_len: usize, line: Line, n: u16) -> LineAnswer;
    /// n clusters back.
    pub fn tlf_line_move_backward(text: *const u8, text_len: usize, line: Line, n: u16) -> LineAnswer;
    /// To the start of the text.
    pub fn tlf_line_move_buffer_start(text: *const u8, text_len: usize, line: Line) -> LineAnswer;
    /// To the end of the text.
    pub fn tlf_line_move_buffer_end(text: *const u8, text_len: usize, line: Line) -> LineAnswer;
    /// To the start of the line.
    pub fn tlf_line_move_home(text: *const u8, text_len: usize, line: Line) -> LineAnswer;
    /// To the end of the line.
    pub fn tlf_line_move_end(text: *const u8, text_len: usize, line: Line) -> LineAnswer;
    /// n words back.
    pub fn tlf_line_move_to_prev_word(text: *const u8, text_len: usize, line: Line, word: u32, n: u16) -> LineAnswer;
    /// n words on.
    pub fn tlf_line_move_to_next_word(
        text: *const u8, text_len: usize, line: Line, at: u32, word: u32, n: u16,
    ) -> LineAnswer;
    /// n lines up, by columns.
    pub fn tlf_line_move_to_line_up(text: *const u8, text_len: usize, line: Line, n: u16, prompt: usize) -> LineAnswer;
    /// n lines down, by columns.
    pub fn tlf_line_move_to_line_down(
        text: *const u8, text_len: usize, line: Line, n: u16, prompt: usize,
    ) -> LineAnswer;
    /// To the n-th match of a character.
    pub fn tlf_line_move_to(text: *const u8, text_len: usize, line: Line, search: u32, ch: u32, n: u16) -> LineAnswer;
}

// L: a log is lent.
#[rustfmt::skip]
unsafe extern "C" {
    /// A log with both lists empty.
    pub fn tlf_log_new() -> Log;
    /// Opens a group, and answers its mark.
    pub fn tlf_log_begin(records: *mut u8, records_len: usize, texts: *mut u8, texts_len: usize, log: Log) -> LogAnswer;
    /// Closes all open groups.
    pub fn tlf_log_end(records: *mut u8, records_len: usize, texts: *mut u8, texts_len: usize, log: Log) -> LogAnswer;
    /// Records a character, typed at a place.
    pub fn tlf_log_insert(
        records: *mut u8, records_len: usize, texts: *mut u8, texts_len: usize, log: Log, idx: usize, ch: u32,
    ) -> LogAnswer;
    /// Records a text, put in at a place.
    pub fn tlf_log_insert_str(
        records: *mut u8, records_len: usize, texts: *mut u8, texts_len: usize, log: Log, idx: usize, buf: *const u8,
        buf_len: usize,
    ) -> LogAnswer;
    /// Records a text, cut at a place.
    pub fn tlf_log_delete(
        records: *mut u8, records_len: usize, texts: *mut u8, texts_len: usize, log: Log, idx: usize, buf: *const u8,
        buf_len: usize,
    ) -> LogAnswer;
    /// Records that one text became another at a place.
    pub fn tlf_log_replace(
        records: *mut u8, records_len: usize, texts: *mut u8, texts_len: usize, log: Log, idx: usize, old: *const u8,
        old_len: usize, new: *const u8, new_len: usize,
    ) -> LogAnswer;
    /// Keeps the undo list's first records.
    pub fn tlf_log_truncate(
        records: *mut u8, records_len: usize, texts: *mut u8, texts_len: usize, log: Log, len: usize,
    ) -> LogAnswer;
    /// Where the text stands that the newest record, Ends apart, has put in.
    pub fn tlf_log_last_insert(
        records: *const u8, records_len: usize, texts: *const u8, texts_len: usize, log: Log,
    ) -> LogAnswer;
}

// U: a text and a log are lent, and the log is not written.
#[rustfmt::skip]
unsafe extern "C" {
    /// Undoes n units.
    pub fn tlf_log_undo(
        text: *mut u8, text_len: usize, records: *const u8, records_len: usize, texts: *const u8, texts_len: usize,
        line: Line, log: Log, n: u16,
    ) -> EditAnswer;
    /// Redoes n units.
    pub fn tlf_log_redo(
        text: *mut u8, text_len: usize, records: *const u8, records_len: usize, texts: *const u8, texts_len: usize,
        line: Line, log: Log, n: u16,
    ) -> EditAnswer;
    /// Takes an open group back.
    pub fn tlf_log_cancel(
        text: *mut u8, text_len: usize, records: *const u8, records_len: usize, texts: *const u8, texts_len: usize,
        line: Line, log: Log, mark: usize,
    ) -> EditAnswer;
}

// R: a ring is lent, its record to be updated.
#[rustfmt::skip]
unsafe extern "C" {
    /// An empty ring. Answers the number alone.
    pub fn tlf_ring_new(ring: *mut Ring, size: usize) -> u32;
    /// The next kill takes a new slot, and there is no yank to pop.
    pub fn tlf_ring_reset(
        slots: *const u8, slots_len: usize, lens: *const u8, lens_len: usize, ring: *mut Ring,
    ) -> RingAnswer;
    /// Keeps a text.
    pub fn tlf_ring_kill(
        slots: *mut u8, slots_len: usize, lens: *mut u8, lens_len: usize, ring: *mut Ring, text: *const u8,
        text_len: usize, mode: u32,
    ) -> RingAnswer;
    /// The slot of the last kill, or where the next entry has gone since.
    pub fn tlf_ring_yank(
        slots: *const u8, slots_len: usize, lens: *const u8, lens_len: usize, ring: *mut Ring,
    ) -> RingAnswer;
    /// After a yank the slot before, and the size of the yank.
    pub fn tlf_ring_yank_pop(
        slots: *const u8, slots_len: usize, lens: *const u8, lens_len: usize, ring: *mut Ring,
    ) -> RingAnswer;
}

// A key: a text, a log and a ring are lent, the ring's record by value.
#[rustfmt::skip]
unsafe extern "C" {
    /// Does what the bytes of one key stand for, on the line and to the ring.
    pub fn tlf_line_key(
        text: *mut u8, text_len: usize, records: *mut u8, records_len: usize, texts: *mut u8, texts_len: usize,
        slots: *mut u8, slots_len: usize, lens: *mut u8, lens_len: usize, line: Line, log: Log, ring: Ring,
        key: *const u8, key_len: usize,
    ) -> KeyAnswer;
}

// A text without a cursor is lent and not written.
#[rustfmt::skip]
unsafe extern "C" {
    /// Lays the text out on a page as a slip, and answers the slip's length.
    pub fn tlf_text_slip(text: *const u8, text_len: usize, page: *mut u8, page_len: usize) -> ValueAnswer;
}
