//! The edit line: a text with its cursor, its log and a kill ring, and the buffers that the library is lent.
use crate::answers::Refusal;
use crate::causes::{Handed, Place, Size};
use crate::changes::Changes;
use crate::ffi::{self, Line, Log};
use crate::ring::KillRing;
use std::{fmt, str};

/// The longest text, and a slot of a ring.
pub const TEXT_MAX: usize = 4_096;
/// The largest records buffer.
pub const RECORDS_MAX: usize = 32_768;
/// The largest buffer for the records' texts.
pub const TEXTS_MAX: usize = 65_535;
/// The most slots of a ring.
pub const SLOTS_MAX: usize = 16;

/// The sizes of an edit line's buffers, each at most its `_MAX`, which is the default.
#[derive(Clone, Copy, Debug, PartialEq, Eq)]
pub struct Room {
    /// Bytes of the text.
    pub text: usize,
    /// Bytes of the log's records.
    pub records: usize,
    /// Bytes of the records' texts.
    pub texts: usize,
    /// Slots of the kill ring.
    pub slots: usize,
}

impl Default for Room {
    fn default() -> Room {
        Room { text: TEXT_MAX, records: RECORDS_MAX, texts: TEXTS_MAX, slots: SLOTS_MAX }
    }
}

/// A text of the catalogue's repertoire with a cursor, what was done to it, and what was killed.
///
/// Every call may be handed anything: what is unfit is an `Err`, and nothing has changed (see [`Refusal`]). Places are
/// byte offsets, a number `n` is a repeat count.
#[derive(Clone)]
pub struct EditLine {
    text: Box<[u8]>,
    records: Box<[u8]>,
    texts: Box<[u8]>,
    line: Line,
    log: Log,
    ring: KillRing,
}

// The calls, by what they are lent. The buffers are allocations of their own: none overlaps another, and no pointer is
// null, with length 0 either. A text given is a borrow of its own, so it lies apart from the buffers that are written.

/// The text, to be read.
macro_rules! look {
    ($self:ident, $call:ident $(, $own:expr)*) => {
        // SAFETY: one buffer, with its length; as said above.
        unsafe { ffi::$call($self.text.as_ptr(), $self.text.len(), $self.line $(, $own)*) }
    };
}

/// The text, to be written, and the log, to be written (`as_mut_ptr`) or read (`as_ptr`).
macro_rules! lend {
    ($self:ident, $pointer:ident, $call:ident $(, $own:expr)*) => {{
        let (text_len, text) = ($self.text.len(), $self.text.as_mut_ptr());
        let (records_len, records) = ($self.records.len(), $self.records.$pointer());
        let (texts_len, texts) = ($self.texts.len(), $self.texts.$pointer());
        let (line, log) = ($self.line, $self.log);
        // SAFETY: three buffers, each with its length; as said above.
        let answer = unsafe { ffi::$call(text, text_len, records, records_len, texts, texts_len, line, log $(, $own)*) };
        $self.line = answer.line;
        $self.log = answer.log;
        answer
    }};
}

macro_rules! edit {
    ($self:ident, $($call:tt)*) => { lend!($self, as_mut_ptr, $($call)*) };
}

macro_rules! retrace {
    ($self:ident, $($call:tt)*) => { lend!($self, as_ptr, $($call)*) };
}

/// The log, to be written.
macro_rules! record {
    ($self:ident, $call:ident $(, $own:expr)*) => {{
        let (records_len, records) = ($self.records.len(), $self.records.as_mut_ptr());
        let (texts_len, texts) = ($self.texts.len(), $self.texts.as_mut_ptr());
        // SAFETY: two buffers, each with its length; as said above.
        let answer = unsafe { ffi::$call(records, records_len, texts, texts_len, $self.log $(, $own)*) };
        $self.log = answer.log;
        answer
    }};
}

mod edits;
mod keys;
mod log;
mod motions;
mod with_ring;

pub use keys::Pressed;

impl EditLine {
    /// An empty line. `Sizes` where a buffer would be over its limit.
    pub fn new(room: Room) -> Result<EditLine, Refusal> {
        let Room { text, records, texts, slots } = room;
        let sizes = [Size::Text { len: text }, Size::Records { len: records }, Size::Texts { len: texts }];
        match (Handed { sizes: &sizes, ..Handed::default() }).size() {
            Some(size) => Err(Refusal::Sizes(size)),
            None => Ok(EditLine::with(room, KillRing::new(slots)?)),
        }
    }

    /// An empty line with buffers that are within their limits, and a ring.
    fn with(room: Room, ring: KillRing) -> EditLine {
        let buffer = |len| vec![0; len].into_boxed_slice();
        EditLine {
            text: buffer(room.text),
            records: buffer(room.records),
            texts: buffer(room.texts),
            line: Line::default(),
            log: Log::default(),
            ring,
        }
    }

    /// Another line begins: this text, this cursor, an empty log. The ring stays.
    pub fn start(&mut self, text: &str, cursor: usize) -> Result<(), Refusal> {
        let (len, room) = (text.len(), self.text.len());
        let buffer = self.text.get_mut(..len).ok_or(Refusal::Sizes(Size::Given { len, room }))?;
        // SAFETY: one buffer, with its length, borrowed for the call.
        let answer = unsafe { ffi::tlf_line_set_pos(text.as_ptr(), len, Line { len, cursor: 0 }, cursor) };
        let places = [Place::Beyond { place: cursor, len }];
        Handed { texts: &[text], places: &places, ..Handed::default() }.outcome(answer.number)?;
        buffer.copy_from_slice(text.as_bytes());
        self.line = answer.line;
        // SAFETY: nothing is lent.
        self.log = unsafe { ffi::tlf_log_new() };
        Ok(())
    }

    /// The sizes of its buffers.
    #[must_use]
    pub fn room(&self) -> Room {
        let (text, records, texts) = (self.text.len(), self.records.len(), self.texts.len());
        Room { text, records, texts, slots: self.ring.size() }
    }

    /// The text.
    #[must_use]
    pub fn text(&self) -> &str {
        let used = self.text.get(..self.line.len).unwrap_or_default();
        str::from_utf8(used).unwrap_or_default()
    }

    /// [`text`](EditLine::text), by the name that it has in rustyline.
    #[must_use]
    pub fn as_str(&self) -> &str {
        self.text()
    }

    /// The text, as a `String`. Nothing is copied.
    #[must_use]
    pub fn into_string(self) -> String {
        let mut text = self.text.into_vec();
        text.truncate(self.line.len);
        String::from_utf8(text).unwrap_or_default()
    }

    /// The text's length in bytes.
    #[must_use]
    pub fn len(&self) -> usize {
        self.line.len
    }

    /// Is there no text?
    #[must_use]
    pub fn is_empty(&self) -> bool {
        self.line.len == 0
    }

    /// The cursor's place in the text, a byte offset.
    #[must_use]
    pub fn cursor(&self) -> usize {
        self.line.cursor
    }

    /// [`cursor`](EditLine::cursor), by the name that it has in rustyline.
    #[must_use]
    pub fn pos(&self) -> usize {
        self.cursor()
    }

    /// The level of open groups.
    #[must_use]
    pub fn level(&self) -> usize {
        self.log.level
    }

    /// What can be undone, the oldest first.
    #[must_use]
    pub fn undo_list(&self) -> Changes<'_> {
        let undo = self.log.undo;
        let records = self.records.get(..undo.records).unwrap_or_default();
        Changes::new(records, self.texts.get(..undo.texts).unwrap_or_default())
    }

    /// What can be redone, the next first.
    #[must_use]
    pub fn redo_list(&self) -> Changes<'_> {
        let Log { undo, redo, .. } = self.log;
        let records = self.records.get(undo.records..).and_then(|rest| rest.get(..redo.records));
        let texts = self.texts.get(undo.texts..).and_then(|rest| rest.get(..redo.texts));
        Changes::new(records.unwrap_or_default(), texts.unwrap_or_default())
    }

    /// What was killed.
    #[must_use]
    pub fn ring(&self) -> &KillRing {
        &self.ring
    }

    /// The ring, for its own calls, or to put another in its place.
    pub fn ring_mut(&mut self) -> &mut KillRing {
        &mut self.ring
    }
}

/// An empty line with the largest buffers.
impl Default for EditLine {
    fn default() -> EditLine {
        EditLine::with(Room::default(), KillRing::default())
    }
}

/// The text.
impl fmt::Display for EditLine {
    fn fmt(&self, f: &mut fmt::Formatter<'_>) -> fmt::Result {
        self.text().fmt(f)
    }
}

impl AsRef<str> for EditLine {
    fn as_ref(&self) -> &str {
        self.text()
    }
}

impl fmt::Debug for EditLine {
    fn fmt(&self, f: &mut fmt::Formatter<'_>) -> fmt::Result {
        f.debug_struct("EditLine")
            .field("text", &self.text())
            .field("cursor", &self.cursor())
            .field("level", &self.level())
            .field("undo", &self.undo_list().collect::<Vec<_>>())
            .field("redo", &self.redo_list().collect::<Vec<_>>())
            .field("ring", &self.ring)
            .finish()
    }
}
