//! The keys of order 1, document 02: each with its bytes, the numbers that it can give, and the calls that it stands
//! for.
use crate::r#gen::FIRST;
use crate::line_calls::Args;
use crate::ring_checks::{APPEND, PREPEND};

pub const ESC: u8 = 0x1B;

/// The calls that a key stands for, by their names.
#[derive(Clone, Copy, PartialEq, Eq)]
pub enum Does {
    /// One that is lent the text alone; the ring is reset.
    Move(&'static str),
    /// One that writes to text and log; the ring is reset.
    Edit(&'static str),
    /// The log's undo; the ring is reset where it is not stopped.
    Undo,
    /// One that cuts, and the ring's kill in this direction of what it cuts.
    Kill(&'static str, u32),
    /// The ring's yank, and the line's of the text that it gives.
    Yank,
    /// The same of yank_pop.
    YankPop,
    /// None: the bytes are no key.
    Nothing,
}

/// A kind of key, as the tally counts it.
pub struct Kind {
    pub name: &'static str,
    /// Without a count; none where they are a character, or no key.
    pub bytes: &'static [u8],
    pub gives: &'static [u32],
    pub does: Does,
    word: u32,
    at: u32,
    action: u32,
}

impl Kind {
    const fn new(name: &'static str, bytes: &'static [u8], gives: &'static [u32], does: Does) -> Kind {
        Kind { name, bytes, gives, does, word: 0, at: 0, action: 0 }
    }

    const fn word(self, word: u32) -> Kind {
        Kind { word, ..self }
    }

    const fn at(self, at: u32) -> Kind {
        Kind { at, ..self }
    }

    const fn action(self, action: u32) -> Kind {
        Kind { action, ..self }
    }

    /// The arguments of its call on the line: each call takes its own.
    pub fn args(&self, n: u16, ch: u32) -> Args {
        Args { n, ch, word: self.word, at: self.at, action: self.action, ..FIRST }
    }
}

const BIG: u32 = 0;
const EMACS: u32 = 1;
const AFTER_END: u32 = 2;

const MOVES: &[u32] = &[0, 1, 2, 4, 5, 6, 8];
const TYPED: &[u32] = &[0, 2, 4, 5, 6, 8, 9, 10];
const EDITS: &[u32] = &[0, 1, 2, 4, 5, 6, 8, 10];
const LONGER: &[u32] = &[0, 1, 2, 4, 5, 6, 8, 9, 10];
const KILLS: &[u32] = &[0, 1, 2, 4, 5, 6, 8, 10, 11];
const UNDOES: &[u32] = &[0, 1, 2, 4, 5, 6, 8, 9, 12];
const UNBOUND: &[u32] = &[2, 4, 5, 6, 8, 13];

/// The rows of a character and of no key.
pub const CHARACTER: usize = 0;
pub const NO_KEY: usize = KINDS.len() - 1;

#[rustfmt::skip]
pub static KINDS: [Kind; 21] = [
    Kind::new("key: a character", b"", TYPED, Does::Edit("tlf_line_insert")),
    Kind::new("key: C-a", b"\x01", MOVES, Does::Move("tlf_line_move_home")),
    Kind::new("key: C-e", b"\x05", MOVES, Does::Move("tlf_line_move_end")),
    Kind::new("key: C-b", b"\x02", MOVES, Does::Move("tlf_line_move_backward")),
    Kind::new("key: C-f", b"\x06", MOVES, Does::Move("tlf_line_move_forward")),
    Kind::new("key: ESC b", b"\x1Bb", MOVES, Does::Move("tlf_line_move_to_prev_word")).word(EMACS),
    Kind::new("key: ESC f", b"\x1Bf", MOVES, Does::Move("tlf_line_move_to_next_word")).at(AFTER_END).word(EMACS),
    Kind::new("key: C-d", b"\x04", EDITS, Does::Edit("tlf_line_delete")),
    Kind::new("key: C-t", b"\x14", EDITS, Does::Edit("tlf_line_transpose_chars")),
    Kind::new("key: ESC t", b"\x1Bt", LONGER, Does::Edit("tlf_line_transpose_words")),
    Kind::new("key: ESC c", b"\x1Bc", EDITS, Does::Edit("tlf_line_edit_word")).action(0),
    Kind::new("key: ESC l", b"\x1Bl", EDITS, Does::Edit("tlf_line_edit_word")).action(1),
    Kind::new("key: ESC u", b"\x1Bu", EDITS, Does::Edit("tlf_line_edit_word")).action(2),
    Kind::new("key: C-_", b"\x1F", UNDOES, Does::Undo),
    Kind::new("key: C-k", b"\x0B", KILLS, Does::Kill("tlf_line_kill_line", APPEND)),
    Kind::new("key: C-u", b"\x15", KILLS, Does::Kill("tlf_line_discard_line", PREPEND)),
    Kind::new("key: C-w", b"\x17", KILLS, Does::Kill("tlf_line_delete_prev_word", PREPEND)).word(BIG),
    Kind::new("key: ESC d", b"\x1Bd", KILLS, Does::Kill("tlf_line_delete_word", APPEND)).at(AFTER_END).word(EMACS),
    Kind::new("key: C-y", b"\x19", LONGER, Does::Yank),
    Kind::new("key: ESC y", b"\x1By", LONGER, Does::YankPop),
    Kind::new("key: none", b"", UNBOUND, Does::Nothing),
];
