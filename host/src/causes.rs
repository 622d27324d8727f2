//! The causes of 2, 4 and 5. The library gives the number; the cause is told from what the call was handed. The line's
//! own text, log and ring are always fit, so it is among these.
use crate::repertoire::{foreign, foreign_in_key};
use crate::{RECORDS_MAX, SLOTS_MAX, TEXTS_MAX, TEXT_MAX};
use std::fmt;

/// Number 2's cause.
#[derive(Clone, Copy, Debug, PartialEq, Eq, Hash)]
#[non_exhaustive]
pub enum Size {
    /// A text's buffer over [`TEXT_MAX`].
    Text {
        /// The bytes that were asked for.
        len: usize,
    },
    /// A text to put in that is longer than the line's buffer.
    Given {
        /// The text's bytes.
        len: usize,
        /// The line's, [`Room::text`](crate::Room::text).
        room: usize,
    },
    /// A buffer for the log's records over [`RECORDS_MAX`].
    Records {
        /// The bytes that were asked for.
        len: usize,
    },
    /// A buffer for the records' texts over [`TEXTS_MAX`].
    Texts {
        /// The bytes that were asked for.
        len: usize,
    },
    /// A ring over [`SLOTS_MAX`].
    Slots {
        /// The slots that were asked for.
        len: usize,
    },
    /// A text for a slip over [`TEXT_MAX`].
    Slip {
        /// The text's bytes.
        len: usize,
    },
}

/// Number 4's cause: what is foreign, and at which byte of the text or key that was handed over. Of two texts the first
/// that has something foreign is meant; a character by itself is at 0.
#[derive(Clone, Copy, Debug, PartialEq, Eq, Hash)]
pub enum Foreign {
    /// A character outside the repertoire.
    Char {
        /// The character.
        ch: char,
        /// Its place.
        at: usize,
    },
    /// A byte with which no character begins, or which begins one that is not whole. Keys alone can have one.
    Byte {
        /// The byte.
        byte: u8,
        /// Its place.
        at: usize,
    },
}

/// Number 5's cause.
#[derive(Clone, Copy, Debug, PartialEq, Eq, Hash)]
pub enum Place {
    /// A cursor, or a range's end, beyond its text.
    Beyond {
        /// The place.
        place: usize,
        /// The text's length.
        len: usize,
    },
    /// A range whose start is after its end.
    StartAfterEnd {
        /// The start.
        start: usize,
        /// The end.
        end: usize,
    },
    /// A yank that is longer than what stands before the cursor.
    YankSize {
        /// The yank's size.
        size: usize,
        /// The cursor.
        cursor: usize,
    },
}

/// What a call was handed that can be unfit. Causes stand in the order of the enums: the first that is true is told.
#[derive(Default)]
pub(crate) struct Handed<'a> {
    pub sizes: &'a [Size],
    pub ch: Option<char>,
    pub texts: &'a [&'a str],
    pub key: &'a [u8],
    pub places: &'a [Place],
}

impl Handed<'_> {
    pub(crate) fn size(&self) -> Option<Size> {
        self.sizes.iter().copied().find(|size| size.is_over())
    }

    pub(crate) fn foreign(&self) -> Option<Foreign> {
        let ch = self.ch.map(|ch| Foreign::Char { ch, at: 0 });
        ch.or_else(|| self.texts.iter().copied().find_map(foreign)).or_else(|| foreign_in_key(self.key))
    }

    pub(crate) fn place(&self) -> Option<Place> {
        self.places.iter().copied().find(|place| place.is_unfit())
    }
}

impl Size {
    /// What was asked for, and the most that there may be.
    fn limits(self) -> (usize, usize) {
        match self {
            Size::Text { len } => (len, TEXT_MAX),
            Size::Given { len, room } => (len, room),
            Size::Records { len } => (len, RECORDS_MAX),
            Size::Texts { len } => (len, TEXTS_MAX),
            Size::Slots { len } => (len, SLOTS_MAX),
            Size::Slip { len } => (len, TEXT_MAX),
        }
    }

    pub(crate) fn is_over(self) -> bool {
        let (len, most) = self.limits();
        len > most
    }
}

impl Place {
    fn is_unfit(self) -> bool {
        match self {
            Place::Beyond { place, len } => place > len,
            Place::StartAfterEnd { start, end } => start > end,
            Place::YankSize { size, cursor } => size > cursor,
        }
    }
}

impl fmt::Display for Size {
    fn fmt(&self, f: &mut fmt::Formatter<'_>) -> fmt::Result {
        let (len, most) = self.limits();
        let most = Grouped(most);
        match self {
            Size::Text { .. } => write!(f, "a text's buffer has at most {most} bytes, not {}", Grouped(len)),
            Size::Given { .. } => write!(f, "the text has {}, the line takes {most}", Bytes(len)),
            Size::Records { .. } => write!(f, "the buffer for records has at most {most} bytes, not {}", Grouped(len)),
            Size::Texts { .. } => {
                write!(f, "the buffer for the records' texts has at most {most} bytes, not {}", Grouped(len))
            }
            Size::Slots { .. } => write!(f, "a ring has at most {most} slots, not {}", Grouped(len)),
            Size::Slip { .. } => write!(f, "a text for a slip has at most {most} bytes, not {}", Grouped(len)),
        }
    }
}

/// What cannot be seen, and a mark, is an escape.
impl fmt::Display for Foreign {
    fn fmt(&self, f: &mut fmt::Formatter<'_>) -> fmt::Result {
        match *self {
            Foreign::Char { ch, at } => {
                let place = Grouped(at);
                write!(f, "U+{:04X} {ch:?} at place {place} is outside the catalogue's repertoire", u32::from(ch))
            }
            Foreign::Byte { byte, at } => write!(f, "0x{byte:02X} at place {} is not UTF-8", Grouped(at)),
        }
    }
}

impl fmt::Display for Place {
    fn fmt(&self, f: &mut fmt::Formatter<'_>) -> fmt::Result {
        match *self {
            Place::Beyond { place, len } => {
                write!(f, "{} lies beyond the text, which has {}", Grouped(place), Bytes(len))
            }
            Place::StartAfterEnd { start, end } => {
                write!(f, "the start, {}, is after the end, {}", Grouped(start), Grouped(end))
            }
            Place::YankSize { size, cursor } => {
                write!(f, "the yank has {}, before the cursor stand {}", Bytes(size), Grouped(cursor))
            }
        }
    }
}

/// A number with a comma before each three digits: 65,535.
struct Grouped(usize);

impl fmt::Display for Grouped {
    fn fmt(&self, f: &mut fmt::Formatter<'_>) -> fmt::Result {
        match self.0.checked_div(1_000) {
            Some(thousands @ 1..) => write!(f, "{},{:03}", Grouped(thousands), self.0 % 1_000),
            _ => write!(f, "{}", self.0),
        }
    }
}

/// So many bytes.
struct Bytes(usize);

impl fmt::Display for Bytes {
    fn fmt(&self, f: &mut fmt::Formatter<'_>) -> fmt::Result {
        write!(f, "{} {}", Grouped(self.0), if self.0 == 1 { "byte" } else { "bytes" })
    }
}
