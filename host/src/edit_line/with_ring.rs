//! Calls on the line and on its ring in one: both, or neither.
use super::EditLine;
use crate::answers::{Outcome, Refusal};
use crate::causes::{Handed, Place, Size};
use crate::codes::Movement;
use crate::ffi::{self, Line, Log};
use std::str;

/// A line without its ring: what is used of its buffers.
struct Kept {
    text: Vec<u8>,
    records: Vec<u8>,
    texts: Vec<u8>,
    line: Line,
    log: Log,
}

impl EditLine {
    /// The line's `kill` and the ring's in one, both or neither: what the movement cuts goes to the ring, in front of
    /// what the slot has from the kill before where the movement goes back from the cursor, else behind it. So
    /// rustyline's listener has it. `Nothing` leaves the ring as it was, a refusal line and ring.
    ///
    /// `BackwardChar` and `ForwardChar` delete, as they do there: the ring is neither given the text nor reset.
    pub fn kill_to_ring(&mut self, movement: Movement) -> Result<Outcome, Refusal> {
        let Some(mode) = movement.mode() else { return self.kill(movement) };
        let before = self.kept();
        let outcome = self.kill(movement)?;
        if outcome == Outcome::Done {
            let kept = self.ring.kill(before.cut(self.line), mode);
            kept.inspect_err(|_| self.put_back(&before))?;
        }
        Ok(outcome)
    }

    /// The ring's `yank` and the line's in one: a refusal by the line leaves the ring as it was.
    pub fn yank_killed(&mut self, n: u16) -> Result<Outcome, Refusal> {
        let before = self.ring.record();
        let Some(text) = self.ring.yank()? else { return Ok(Outcome::Nothing) };
        let answer = edit!(self, tlf_line_yank, text.as_ptr(), text.len(), n);
        let sizes = [Size::Given { len: text.len(), room: self.text.len() }];
        let handed = Handed { sizes: &sizes, ..Handed::default() };
        handed.outcome(answer.number).inspect_err(|_| self.ring.put_back(before))
    }

    /// The ring's `yank_pop` and the line's in one: a refusal by the line leaves the ring as it was.
    pub fn yank_pop_killed(&mut self) -> Result<Outcome, Refusal> {
        let before = self.ring.record();
        let Some((yank_size, text)) = self.ring.yank_pop()? else { return Ok(Outcome::Nothing) };
        let answer = edit!(self, tlf_line_yank_pop, yank_size, text.as_ptr(), text.len());
        let sizes = [Size::Given { len: text.len(), room: self.text.len() }];
        let places = [Place::YankSize { size: yank_size, cursor: self.line.cursor }];
        let handed = Handed { sizes: &sizes, places: &places, ..Handed::default() };
        handed.outcome(answer.number).inspect_err(|_| self.ring.put_back(before))
    }

    fn kept(&self) -> Kept {
        let (line, log) = (self.line, self.log);
        let used = |buffer: &[u8], len| buffer.get(..len).unwrap_or_default().to_vec();
        Kept {
            text: used(&self.text, line.len),
            records: used(&self.records, log.undo.records.saturating_add(log.redo.records)),
            texts: used(&self.texts, log.undo.texts.saturating_add(log.redo.texts)),
            line,
            log,
        }
    }

    fn put_back(&mut self, kept: &Kept) {
        let Kept { text, records, texts, line, log } = kept;
        for (buffer, used) in [(&mut self.text, text), (&mut self.records, records), (&mut self.texts, texts)] {
            buffer.iter_mut().zip(used).for_each(|(byte, was)| *byte = *was);
        }
        (self.line, self.log) = (*line, *log);
    }
}

impl Kept {
    /// What a kill has cut, which left this line: it starts at the cursor, and the text is so much shorter.
    fn cut(&self, left: Line) -> &str {
        let end = left.cursor.saturating_add(self.line.len.saturating_sub(left.len));
        let bytes = self.text.get(left.cursor..end).unwrap_or_default();
        str::from_utf8(bytes).unwrap_or_default()
    }
}
