//! The checks of document 01 for a call that is lent a log, in number order. A call that they pass is the Rust's to
//! decide.
use crate::checks::{in_repertoire, is_text};
use crate::ffi::{Log, Used};
use crate::log_calls::{Args, Entry, Param};
use crate::log_model::{Change, Growth, list};

pub const MAX_RECORDS: usize = 32768;
pub const MAX_TEXTS: usize = 65535;
pub const MAX_PLACE: usize = 65535;
pub const MAX_LEVEL: usize = 255;

/// The two buffers as they are lent, and the log's state.
#[derive(Clone, Copy)]
pub struct Loan<'a> {
    pub records: &'a [u8],
    pub texts: &'a [u8],
    pub log: Log,
}

/// The undo list, oldest first, and the redo list, next to be redone first.
pub struct Lists<'a> {
    pub undo: Vec<Change<&'a str>>,
    pub redo: Vec<Change<&'a str>>,
}

impl<'a> Loan<'a> {
    /// Check 2: a buffer over its limit; used lengths that together pass their buffer.
    pub fn is_oversized(&self) -> bool {
        let Log { undo, redo, .. } = self.log;
        let over = |a: usize, b: usize, size: usize| a.checked_add(b).is_none_or(|sum| sum > size);
        self.records.len() > MAX_RECORDS
            || self.texts.len() > MAX_TEXTS
            || over(undo.records, redo.records, self.records.len())
            || over(undo.texts, redo.texts, self.texts.len())
    }

    /// Check 8, of a loan that check 2 passes: the lists; none where the level is over 255 or a list breaks its layout.
    pub fn lists(&self) -> Option<Lists<'a>> {
        let Log { undo, redo, level } = self.log;
        if level > MAX_LEVEL {
            return None;
        }
        let (undo_records, behind) = self.records.split_at(undo.records);
        let (undo_texts, texts_behind) = self.texts.split_at(undo.texts);
        let undo = list(undo_records, undo_texts)?;
        let redo = list(&behind[..redo.records], &texts_behind[..redo.texts])?;
        Some(Lists { undo, redo })
    }

    /// Check 10: what has no room once the redo list is dropped, a place of more than 2 bytes, a group above level 255.
    pub fn is_full(&self, growth: &Growth) -> bool {
        let Used { records, texts } = growth.after(self.log.undo);
        records > self.records.len() || texts > self.texts.len() || growth.place > MAX_PLACE || growth.level > MAX_LEVEL
    }
}

/// Check 4 of a parameter.
fn is_foreign(param: Param, args: &Args) -> bool {
    match param {
        Param::Ch => !in_repertoire(args.ch),
        Param::Buf => !is_text(&args.buf),
        Param::Old => !is_text(&args.old),
        Param::New => !is_text(&args.new),
        Param::Idx | Param::Len => false,
    }
}

/// The undo list's used lengths after the call, or the number by which it is refused: the lowest whose check fails.
pub fn log_call(entry: &Entry, loan: &Loan, args: &Args) -> Result<Used, u32> {
    if loan.is_oversized() {
        return Err(2);
    }
    if entry.takes.iter().any(|&param| is_foreign(param, args)) {
        return Err(4);
    }
    let lists = loan.lists().ok_or(8u32)?;
    let growth = (entry.grows)(&lists.undo, loan.log.level, args);
    if loan.is_full(&growth) { Err(10) } else { Ok(growth.after(loan.log.undo)) }
}
