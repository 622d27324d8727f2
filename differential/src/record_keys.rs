//! A recorded key as a line: what it is lent, '>', and what it answers and leaves, as the head of its data file
//! (`record_heads.rs`) says.
use std::fmt::Write as _;

use crate::ffi::KeyAnswer;
use crate::key_case::{Case, Expected};
use crate::record_lines::{Lent, LentRing, hex, left, put_numbers, put_record, put_state};

/// What a key is lent.
pub struct LentKey<'a> {
    pub case: &'a Case,
    pub key: &'a [u8],
}

impl<'a> LentKey<'a> {
    fn line_and_log(&self) -> Lent<'a> {
        let loan = self.case.line.log.loan();
        let (text, line) = (self.case.line.buffer(), self.case.line.line());
        let (records, texts, log) = (loan.records, loan.texts, loan.log);
        Lent { text, records, texts, line, log, buf: self.key, ..Lent::default() }
    }

    fn ring(&self) -> LentRing<'a> {
        LentRing { loan: self.case.ring.loan(), text: &[], arguments: Vec::new() }
    }

    /// Whether text, log or ring is at a limit, one short of it or one beyond it.
    pub fn is_at_a_limit(&self) -> bool {
        self.line_and_log().is_at_a_limit() || self.ring().is_at_a_limit()
    }

    /// Whether a program has room for the buffers.
    pub fn fits(&self) -> bool {
        self.line_and_log().fits() && self.ring().fits()
    }

    /// The line of this key.
    pub fn line(&self, due: &Expected) -> String {
        let lent = self.line_and_log();
        let [slots, lens] = self.ring().buffers().map(|buffer| hex(&buffer));
        let mut out = format!("line_key{} {slots} {lens} {}", lent.buffers(), hex(self.key));
        put_state(&mut out, &lent.line, &lent.log);
        put_record(&mut out, &self.case.ring.loan().ring);

        let Expected { answer, text, lists, slots } = due;
        let used = slots.as_ref().map(|texts| texts.concat());
        let length = |text: &Vec<u8>| (text.len() as u16).to_le_bytes();
        let lengths = slots.as_ref().map(|texts| texts.iter().flat_map(length).collect::<Vec<u8>>());
        let records = lists.as_ref().map(|lists| &lists.records[..]);
        let texts = lists.as_ref().map(|lists| &lists.texts[..]);
        let all = [text.as_deref(), records, texts, used.as_deref(), lengths.as_deref()].map(left).join(" ");
        let KeyAnswer { number, from, to, line, log, ring } = answer;
        let _ = write!(out, " > {all} {number}");
        put_numbers(&mut out, &[*from, *to]);
        put_state(&mut out, line, log);
        put_record(&mut out, ring);
        out
    }
}
