//! What a call says: document 01's numbers as results, and those of document 02's orders, 13 and 14.
use crate::causes::{Foreign, Handed, Place, Size};
use std::error::Error;
use std::fmt;

/// A call that is not refused.
#[derive(Clone, Copy, Debug, PartialEq, Eq, Hash)]
pub enum Outcome {
    /// Number 0.
    Done,
    /// Number 1: there was nothing to be done.
    Nothing,
}

impl Outcome {
    /// Document 01's number, 0 or 1.
    #[must_use]
    pub fn number(self) -> u32 {
        self as u32
    }

    /// Document 01's word.
    #[must_use]
    pub fn word(self) -> &'static str {
        match self {
            Outcome::Done => "done",
            Outcome::Nothing => "nothing",
        }
    }
}

impl fmt::Display for Outcome {
    fn fmt(&self, f: &mut fmt::Formatter<'_>) -> fmt::Result {
        f.write_str(self.word())
    }
}

/// A call that is refused, by document 01's number, with the cause of 2, 4 and 5. `Display` writes the sentence.
///
/// Nothing has changed, but for `undo`, `redo`, `cancel` and the key that undoes where they stop with `Full` or
/// `Misfit`: the records handled before the one in the way stay handled.
///
/// `Code` and `Damaged` do not come from an `EditLine`, whose codes are enums and whose log and ring are its own. Where
/// a number has two causes at once, the first of its cases is told. `PageFull` does not come from
/// [`slip`](crate::slip()), whose page is long enough for every slip of its text.
#[derive(Clone, Copy, Debug, PartialEq, Eq, Hash)]
#[non_exhaustive]
pub enum Refusal {
    /// Number 2: a buffer or a ring over its limit, or a text to put in longer than the line's buffer.
    Sizes(Size),
    /// Number 3: a code that names nothing.
    Code,
    /// Number 4: a character outside the repertoire, or bytes that are not UTF-8.
    Foreign(Foreign),
    /// Number 5: a place beyond the text, a start after its end, or a yank size above the cursor.
    Place(Place),
    /// Number 6: a place inside a character.
    Split,
    /// Number 7: a prompt column over 1,024.
    Prompt,
    /// Number 8: a log or a ring that breaks its layout.
    Damaged,
    /// Number 9: the text would be longer than its buffer, if only on the way.
    Full,
    /// Number 10: the log has no room for the change, or a group would open above level 255.
    LogFull,
    /// Number 11: a slot of the ring would pass 4,096 bytes.
    RingFull,
    /// Number 12: a record of the log that does not fit the text.
    Misfit,
    /// Number 13, of a key alone: bytes that are no key.
    Unbound,
    /// Number 14, of a slip alone: it is longer than its page.
    PageFull,
    /// A number that this crate does not know, as a later library may answer it.
    Unknown(u32),
}

impl Refusal {
    /// Document 01's number, 2 to 12, or an order's, from 13 on.
    #[must_use]
    pub fn number(self) -> u32 {
        match self {
            Refusal::Sizes(_) => 2,
            Refusal::Code => 3,
            Refusal::Foreign(_) => 4,
            Refusal::Place(_) => 5,
            Refusal::Split => 6,
            Refusal::Prompt => 7,
            Refusal::Damaged => 8,
            Refusal::Full => 9,
            Refusal::LogFull => 10,
            Refusal::RingFull => 11,
            Refusal::Misfit => 12,
            Refusal::Unbound => 13,
            Refusal::PageFull => 14,
            Refusal::Unknown(number) => number,
        }
    }

    /// Document 01's word; "unknown" for a number that this crate does not know.
    #[must_use]
    pub fn word(self) -> &'static str {
        match self {
            Refusal::Sizes(_) => "sizes",
            Refusal::Code => "code",
            Refusal::Foreign(_) => "foreign",
            Refusal::Place(_) => "place",
            Refusal::Split => "split",
            Refusal::Prompt => "prompt",
            Refusal::Damaged => "damaged",
            Refusal::Full => "full",
            Refusal::LogFull => "log full",
            Refusal::RingFull => "ring full",
            Refusal::Misfit => "misfit",
            Refusal::Unbound => "unbound",
            Refusal::PageFull => "page full",
            Refusal::Unknown(_) => "unknown",
        }
    }
}

impl fmt::Display for Refusal {
    fn fmt(&self, f: &mut fmt::Formatter<'_>) -> fmt::Result {
        f.write_str(match self {
            Refusal::Sizes(size) => return size.fmt(f),
            Refusal::Foreign(foreign) => return foreign.fmt(f),
            Refusal::Place(place) => return place.fmt(f),
            Refusal::Unknown(number) => {
                return write!(f, "the library answers {number}, for which there are no words here")
            }
            Refusal::Code => "a code names nothing",
            Refusal::Split => "a place lies inside a character",
            Refusal::Prompt => "the prompt is wider than 1,024 columns",
            Refusal::Damaged => "the log or the ring breaks its layout",
            Refusal::Full => "the text would be longer than its buffer",
            Refusal::LogFull => "the log has no room for the change, or too many groups are open",
            Refusal::RingFull => "a slot of the ring would pass 4,096 bytes",
            Refusal::Misfit => "a record of the log does not fit the text",
            Refusal::Unbound => "the bytes are no key",
            Refusal::PageFull => "the slip is longer than its page",
        })
    }
}

impl Error for Refusal {}

impl Handed<'_> {
    /// What a number says of a call that was handed this.
    pub(crate) fn outcome(&self, number: u32) -> Result<Outcome, Refusal> {
        match number {
            0 => Ok(Outcome::Done),
            1 => Ok(Outcome::Nothing),
            _ => Err(self.refusal(number).unwrap_or(Refusal::Unknown(number))),
        }
    }

    fn refusal(&self, number: u32) -> Option<Refusal> {
        match number {
            2 => self.size().map(Refusal::Sizes),
            3 => Some(Refusal::Code),
            4 => self.foreign().map(Refusal::Foreign),
            5 => self.place().map(Refusal::Place),
            6 => Some(Refusal::Split),
            7 => Some(Refusal::Prompt),
            8 => Some(Refusal::Damaged),
            9 => Some(Refusal::Full),
            10 => Some(Refusal::LogFull),
            11 => Some(Refusal::RingFull),
            12 => Some(Refusal::Misfit),
            13 => Some(Refusal::Unbound),
            14 => Some(Refusal::PageFull),
            _ => None,
        }
    }

    /// What a call that answers something found.
    pub(crate) fn found<T>(&self, number: u32, what: T) -> Result<Option<T>, Refusal> {
        Ok(match self.outcome(number)? {
            Outcome::Done => Some(what),
            Outcome::Nothing => None,
        })
    }
}

/// What a number says of a call that was handed nothing which could be unfit by 2, 4 or 5.
pub(crate) fn outcome(number: u32) -> Result<Outcome, Refusal> {
    Handed::default().outcome(number)
}

/// What such a call found.
pub(crate) fn found<T>(number: u32, what: T) -> Result<Option<T>, Refusal> {
    Handed::default().found(number, what)
}

#[cfg(test)]
mod tests {
    use super::*;

    /// Every number has a refusal of its own, and gives itself back.
    #[test]
    fn numbers() {
        let handed = Handed {
            sizes: &[Size::Slots { len: 17 }],
            ch: Some('\0'),
            places: &[Place::Beyond { place: 1, len: 0 }],
            ..Handed::default()
        };
        let refused: Vec<_> = (2..=14).filter_map(|number| handed.refusal(number)).collect();
        assert_eq!(refused.iter().map(|refusal| refusal.number()).collect::<Vec<_>>(), (2..=14).collect::<Vec<_>>());
        let mut words: Vec<_> = refused.iter().map(|refusal| refusal.word()).collect();
        words.dedup();
        assert_eq!((words.len(), words.contains(&"unknown")), (13, false));
        for number in [15, 100, u32::MAX] {
            assert_eq!(handed.outcome(number), Err(Refusal::Unknown(number)));
            assert_eq!((Refusal::Unknown(number).number(), Refusal::Unknown(number).word()), (number, "unknown"));
        }
        assert_eq!(Refusal::Unknown(15).to_string(), "the library answers 15, for which there are no words here");
        assert_eq!([0, 1].map(outcome), [Ok(Outcome::Done), Ok(Outcome::Nothing)]);
    }

    /// A cause that is not true is not told.
    #[test]
    fn no_cause() {
        let fit = Handed {
            sizes: &[Size::Given { len: 4, room: 4 }, Size::Slots { len: 16 }],
            texts: &["a", ""],
            places: &[
                Place::Beyond { place: 4, len: 4 },
                Place::StartAfterEnd { start: 1, end: 1 },
                Place::YankSize { size: 1, cursor: 1 },
            ],
            ..Handed::default()
        };
        assert_eq!([2, 4, 5].map(|number| fit.outcome(number)), [2, 4, 5].map(|number| Err(Refusal::Unknown(number))));
    }
}
