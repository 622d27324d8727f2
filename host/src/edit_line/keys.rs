//! Keys: the bytes of one key do what its call on the line does, and to the ring what belongs to it.
use super::EditLine;
use crate::answers::{Outcome, Refusal};
use crate::causes::{Handed, Place, Size};
use crate::ffi;
use std::ops::Range;

/// What a key did.
#[derive(Clone, Debug, PartialEq, Eq, Hash)]
pub struct Pressed {
    /// What the call on the line says that the key stands for.
    pub outcome: Outcome,
    /// The places between which control d cut, in the text as it was. No other key has any.
    pub cut: Option<Range<usize>>,
}

impl EditLine {
    /// One key, whole: a character, or a key of the Emacs bindings that `include/tulofewa.h` names, as bytes; in front
    /// of it may stand ESC and digits, its repeat count. What it kills goes to the line's ring, what it yanks comes from
    /// there, and every other key resets it.
    ///
    /// `Unbound` where the bytes are no key, or more than one. A refusal changes neither line nor ring; control
    /// underscore may stop as `undo` does, and then the ring is as it was.
    pub fn key(&mut self, key: &[u8]) -> Result<Pressed, Refusal> {
        let [text, records, texts] =
            [&mut self.text, &mut self.records, &mut self.texts].map(|buffer| (buffer.as_mut_ptr(), buffer.len()));
        let (line, log, ring) = (self.line, self.log, self.ring.record());
        let [slots, lens] = self.ring.buffers();
        // SAFETY: five buffers, allocations of their own, each with its length; none overlaps another, and no pointer is
        // null, with length 0 either. The key is a borrow of its own and lies apart from them.
        #[rustfmt::skip]
        let answer = unsafe {
            ffi::tlf_line_key(
                text.0, text.1, records.0, records.1, texts.0, texts.1, slots.0, slots.1, lens.0, lens.1, line, log,
                ring, key.as_ptr(), key.len(),
            )
        };
        self.line = answer.line;
        self.log = answer.log;
        self.ring.put_back(answer.ring);
        let outcome = self.pressed(answer.number, key)?;
        let cut = answer.from..answer.to;
        Ok(Pressed { outcome, cut: (!cut.is_empty()).then_some(cut) })
    }

    /// What a number says of a key. 4 is of its bytes; 2 and 5 are of what the ring gives to control y and to ESC y.
    fn pressed(&mut self, number: u32, key: &[u8]) -> Result<Outcome, Refusal> {
        if number < 2 {
            return Handed::default().outcome(number);
        }
        let before = self.ring.record();
        let given = if key.ends_with(b"y") {
            self.ring.yank_pop().map(|given| given.map(|(size, text)| (size, text.len())))
        } else {
            self.ring.yank().map(|given| given.map(|text| (0, text.len())))
        };
        self.ring.put_back(before);
        let (size, len) = given.ok().flatten().unwrap_or_default();
        let sizes = [Size::Given { len, room: self.text.len() }];
        let places = [Place::YankSize { size, cursor: self.line.cursor }];
        Handed { sizes: &sizes, key, places: &places, ..Handed::default() }.outcome(number)
    }
}
