//! What the codes name, in the order in which rustyline's keymap.rs, line_buffer.rs and kill_ring.rs declare it: a code
//! is a place in that order, from 0.

/// What a word is made of.
#[derive(Clone, Copy, Debug, PartialEq, Eq, Hash)]
pub enum Word {
    /// All that is not white space.
    Big,
    /// Alphanumeric clusters.
    Emacs,
    /// Alphanumeric clusters and "_", or a run of others.
    Vi,
}

/// Where a forward word motion stops.
#[derive(Clone, Copy, Debug, PartialEq, Eq, Hash)]
pub enum At {
    /// At the start of a word.
    Start,
    /// Before a word's last character.
    BeforeEnd,
    /// Behind a word's last character.
    AfterEnd,
}

/// A search for a character: the direction, and on which side of it the search ends.
#[derive(Clone, Copy, Debug, PartialEq, Eq, Hash)]
pub enum CharSearch {
    /// Forward, to the character.
    Forward(char),
    /// Forward, to what stands before it.
    ForwardBefore(char),
    /// Backward, to the character.
    Backward(char),
    /// Backward, to what stands behind it.
    BackwardAfter(char),
}

/// The case that a word gets.
#[derive(Clone, Copy, Debug, PartialEq, Eq, Hash)]
pub enum WordAction {
    /// The first cluster in upper case, the others in lower case.
    Capitalize,
    /// Lower case.
    Lowercase,
    /// Upper case.
    Uppercase,
}

/// Where a kill goes that follows a kill.
#[derive(Clone, Copy, Debug, PartialEq, Eq, Hash)]
pub enum Mode {
    /// Behind what the slot has.
    Append,
    /// In front of it.
    Prepend,
}

/// What was last done to a ring. A yank has the size of what it put in.
#[derive(Clone, Copy, Debug, PartialEq, Eq, Hash)]
pub enum Action {
    /// A kill: the next one goes to the same slot.
    Kill,
    /// A yank: another slot's text can take its place.
    Yank(usize),
    /// Neither.
    Other,
}

/// What copy, kill and indent go over. A number is a repeat count.
#[derive(Clone, Copy, Debug, PartialEq, Eq, Hash)]
pub enum Movement {
    /// The line that the cursor stands in.
    WholeLine,
    /// To the start of the line.
    BeginningOfLine,
    /// To the end of the line.
    EndOfLine,
    /// Words back.
    BackwardWord(u16, Word),
    /// Words on.
    ForwardWord(u16, At, Word),
    /// To a match of a character.
    ViCharSearch(u16, CharSearch),
    /// Vi's ^: to the first word.
    ViFirstPrint,
    /// Clusters back.
    BackwardChar(u16),
    /// Clusters on.
    ForwardChar(u16),
    /// The cursor's line and lines above it.
    LineUp(u16),
    /// The cursor's line and lines below it.
    LineDown(u16),
    /// The whole text.
    WholeBuffer,
    /// To the start of the text.
    BeginningOfBuffer,
    /// To the end of the text.
    EndOfBuffer,
}

/// A movement by its numbers; those that it does not use are 0.
#[derive(Default)]
pub(crate) struct Codes {
    pub mvt: u32,
    pub n: u16,
    pub at: u32,
    pub word: u32,
    pub search: u32,
    pub ch: u32,
}

impl CharSearch {
    /// The search and its character.
    pub(crate) fn codes(self) -> (u32, char) {
        match self {
            CharSearch::Forward(ch) => (0, ch),
            CharSearch::ForwardBefore(ch) => (1, ch),
            CharSearch::Backward(ch) => (2, ch),
            CharSearch::BackwardAfter(ch) => (3, ch),
        }
    }
}

impl Movement {
    pub(crate) fn codes(self) -> Codes {
        let none = Codes::default();
        match self {
            Movement::WholeLine => Codes { mvt: 0, ..none },
            Movement::BeginningOfLine => Codes { mvt: 1, ..none },
            Movement::EndOfLine => Codes { mvt: 2, ..none },
            Movement::BackwardWord(n, word) => Codes { mvt: 3, n, word: word as u32, ..none },
            Movement::ForwardWord(n, at, word) => Codes { mvt: 4, n, at: at as u32, word: word as u32, ..none },
            Movement::ViCharSearch(n, search) => {
                let (search, ch) = search.codes();
                Codes { mvt: 5, n, search, ch: ch.into(), ..none }
            }
            Movement::ViFirstPrint => Codes { mvt: 6, ..none },
            Movement::BackwardChar(n) => Codes { mvt: 7, n, ..none },
            Movement::ForwardChar(n) => Codes { mvt: 8, n, ..none },
            Movement::LineUp(n) => Codes { mvt: 9, n, ..none },
            Movement::LineDown(n) => Codes { mvt: 10, n, ..none },
            Movement::WholeBuffer => Codes { mvt: 11, ..none },
            Movement::BeginningOfBuffer => Codes { mvt: 12, ..none },
            Movement::EndOfBuffer => Codes { mvt: 13, ..none },
        }
    }
    /// The character that it searches for.
    pub(crate) fn searched(self) -> Option<char> {
        match self {
            Movement::ViCharSearch(_, search) => Some(search.codes().1),
            _ => None,
        }
    }
    /// Where what it kills goes in the ring, as rustyline's listener is told; nowhere where it deletes.
    pub(crate) fn mode(self) -> Option<Mode> {
        use CharSearch::{Backward, BackwardAfter};
        match self {
            Movement::BackwardChar(_) | Movement::ForwardChar(_) => None,
            Movement::BeginningOfLine
            | Movement::BackwardWord(..)
            | Movement::ViCharSearch(_, Backward(_) | BackwardAfter(_))
            | Movement::BeginningOfBuffer => Some(Mode::Prepend),
            _ => Some(Mode::Append),
        }
    }
}
