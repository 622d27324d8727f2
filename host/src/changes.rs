//! The log in words: its records and their texts, decoded by document 01's layout.
use std::fmt;
use std::str;

/// A record of the log.
#[derive(Clone, Copy, Debug, PartialEq, Eq, Hash)]
pub enum Change<'a> {
    /// A group was opened.
    Begin,
    /// A group was closed.
    End,
    /// A text was put in.
    Insert {
        /// Its place.
        at: usize,
        /// The text.
        text: &'a str,
    },
    /// A text was cut.
    Delete {
        /// Its place.
        at: usize,
        /// The text.
        text: &'a str,
    },
    /// A text was put in for another.
    Replace {
        /// Their place.
        at: usize,
        /// The text that was cut.
        old: &'a str,
        /// The text that was put in.
        new: &'a str,
    },
}

impl fmt::Display for Change<'_> {
    fn fmt(&self, f: &mut fmt::Formatter<'_>) -> fmt::Result {
        match self {
            Change::Begin => f.write_str("begin"),
            Change::End => f.write_str("end"),
            Change::Insert { at, text } => write!(f, "insert {text:?} at {at}"),
            Change::Delete { at, text } => write!(f, "delete {text:?} at {at}"),
            Change::Replace { at, old, new } => write!(f, "replace {old:?} by {new:?} at {at}"),
        }
    }
}

/// The records of a list of the log, in the order of its bytes.
#[derive(Clone, Debug)]
pub struct Changes<'a> {
    records: &'a [u8],
    texts: &'a [u8],
}

impl<'a> Changes<'a> {
    pub(crate) fn new(records: &'a [u8], texts: &'a [u8]) -> Changes<'a> {
        Changes { records, texts }
    }

    /// A number: 2 bytes, little-endian.
    fn number(&mut self) -> Option<usize> {
        let (bytes, rest) = self.records.split_first_chunk()?;
        self.records = rest;
        Some(u16::from_le_bytes(*bytes).into())
    }

    fn text(&mut self, len: usize) -> Option<&'a str> {
        let (text, rest) = self.texts.split_at_checked(len)?;
        self.texts = rest;
        str::from_utf8(text).ok()
    }
}

impl<'a> Iterator for Changes<'a> {
    type Item = Change<'a>;

    fn next(&mut self) -> Option<Change<'a>> {
        let (&kind, rest) = self.records.split_first()?;
        self.records = rest;
        match kind {
            1 => return Some(Change::Begin),
            2 => return Some(Change::End),
            _ => {}
        }
        let (at, len) = (self.number()?, self.number()?);
        match kind {
            3 => Some(Change::Insert { at, text: self.text(len)? }),
            4 => Some(Change::Delete { at, text: self.text(len)? }),
            5 => {
                let new_len = self.number()?;
                Some(Change::Replace { at, old: self.text(len)?, new: self.text(new_len)? })
            }
            _ => None,
        }
    }
}
