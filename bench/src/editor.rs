//! The calls that are timed, the same for the library and for rustyline, and the state that both must leave.
use crate::keymap::{At, Word};
use crate::line_buffer::WordAction;

/// A list of the log in document 01's layout.
#[derive(Default, PartialEq, Eq)]
pub struct List {
    pub records: Vec<u8>,
    pub texts: Vec<u8>,
}

impl List {
    /// One byte of kind; place and lengths of 2 bytes each, little-endian; the texts.
    pub fn push(&mut self, kind: u8, place: Option<usize>, texts: &[&str]) {
        self.records.push(kind);
        for number in place.into_iter().chain(texts.iter().map(|text| text.len())) {
            self.records.extend((number as u16).to_le_bytes());
        }
        texts.iter().for_each(|text| self.texts.extend(text.as_bytes()));
    }
}

#[derive(PartialEq, Eq)]
pub struct State {
    pub text: Vec<u8>,
    pub cursor: usize,
    pub undo: List,
    pub redo: List,
    pub level: usize,
    pub slots: Vec<Vec<u8>>,
}

impl State {
    /// What of the two states is not the same.
    pub fn differences(&self, other: &State) -> Vec<&'static str> {
        [
            ("text", self.text == other.text),
            ("cursor", self.cursor == other.cursor),
            ("undo list", self.undo == other.undo),
            ("redo list", self.redo == other.redo),
            ("level", self.level == other.level),
            ("ring", self.slots == other.slots),
        ]
        .into_iter()
        .filter(|(_, same)| !same)
        .map(|(name, _)| name)
        .collect()
    }
}

/// A text with its cursor, a log and a ring. A call says whether its answer is 0: the Rust's true or Some, or done.
pub trait Editor {
    /// The cursor at the text's end, an empty log, an empty ring of 16 slots.
    fn new(text: &str) -> Self;
    fn set_cursor(&mut self, cursor: usize);
    /// The state of another: its text and cursor, its log, its ring.
    fn restore(&mut self, from: &Self);
    /// The log of another, whose text was another one.
    fn take_log(&mut self, from: &Self);
    fn state(&self) -> State;

    fn insert(&mut self, ch: char) -> bool;
    fn yank(&mut self, buf: &str, n: u16) -> bool;
    fn update(&mut self, buf: &str) -> bool;
    fn backspace(&mut self, n: u16) -> bool;
    fn delete(&mut self, n: u16) -> bool;
    fn kill_buffer(&mut self) -> bool;
    fn delete_prev_word(&mut self, word: Word, n: u16) -> bool;
    fn edit_word(&mut self, action: WordAction) -> bool;
    fn transpose_chars(&mut self) -> bool;
    fn transpose_words(&mut self, n: u16) -> bool;
    fn replace(&mut self, start: usize, end: usize, buf: &str) -> bool;
    /// indent with Movement::WholeBuffer.
    fn indent(&mut self, amount: u8, dedent: bool) -> bool;

    fn move_forward(&mut self, n: u16) -> bool;
    fn move_backward(&mut self, n: u16) -> bool;
    fn move_to_prev_word(&mut self, word: Word, n: u16) -> bool;
    fn move_to_next_word(&mut self, at: At, word: Word, n: u16) -> bool;
    /// With prompt column 0.
    fn move_to_line_up(&mut self, n: u16) -> bool;
    fn move_to_line_down(&mut self, n: u16) -> bool;
    /// With CharSearch::Forward.
    fn move_to(&mut self, ch: char, n: u16) -> bool;
    fn is_end_of_input(&mut self) -> bool;
    /// copy with Movement::LineUp: the text copied.
    fn copy_lines_up(&mut self, n: u16) -> Option<String>;

    fn begin(&mut self) -> bool;
    fn end(&mut self) -> bool;
    fn undo(&mut self, n: u16) -> bool;
    /// Changeset's insert_str of no text, which records nothing.
    fn insert_nothing(&mut self) -> bool;
    /// The text.
    fn last_insert(&mut self) -> Option<String>;
    /// The library's alone.
    fn cancel(&mut self, mark: usize) -> bool;

    fn ring_reset(&mut self) -> bool;
    /// kill with Mode::Append.
    fn ring_kill(&mut self, text: &str) -> bool;
    /// The text's length.
    fn ring_yank(&mut self) -> Option<usize>;
    /// The size before and the text's length.
    fn ring_yank_pop(&mut self) -> Option<(usize, usize)>;
}
