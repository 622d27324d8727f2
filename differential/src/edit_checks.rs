//! The checks of document 01 for a call that is lent a text and a log, in number order. A call that they pass is the
//! Rust's to decide.
use crate::checks::{MAX_TEXT, first_character, in_repertoire, is_text, is_white, last_code, splits};
use crate::ffi::{Line, Used};
use crate::line_calls::{Args, Param};
use crate::listeners::Heard;
use crate::log_checks::{Lists, Loan};
use crate::log_model::Change;
use crate::undo::lists;

/// What a call is lent and given.
pub struct EditInput<'a> {
    /// C.
    pub size: usize,
    pub line: Line,
    /// The used part of the text, where it is within its buffer and `is_text` holds of it.
    pub text: Option<&'a [u8]>,
    pub loan: Loan<'a>,
    /// The parameters that the call and its movement use: no others are tried.
    pub uses: &'a [Param],
    pub args: &'a Args,
}

impl EditInput<'_> {
    fn takes(&self, param: Param) -> bool {
        self.uses.contains(&param)
    }

    /// Check 2: C over 4,096, a used length over its buffer, a text to put in over C, the log's sizes.
    fn is_oversized(&self) -> bool {
        self.size > MAX_TEXT
            || self.line.len > self.size
            || self.takes(Param::Buf) && self.args.buf.len() > self.size
            || self.loan.is_oversized()
    }

    /// Check 3: a number that names no movement, word rule, stop, search or case action.
    fn is_unknown(&self) -> bool {
        let unknown = |&param: &Param| last_code(param).is_some_and(|last| self.args.get(param) > last as usize);
        self.uses.iter().any(unknown)
    }

    /// Check 4: a character or a text to put in that is not UTF-8 or is outside the repertoire.
    fn is_foreign(&self) -> bool {
        self.takes(Param::Ch) && !in_repertoire(self.args.ch) || self.takes(Param::Buf) && !is_text(&self.args.buf)
    }

    /// The places that checks 5 and 6 try, each with the text that it is a place of; `usize::MAX` for one in front of
    /// it, and for a start after its end.
    fn places<'a>(&'a self, text: &'a [u8]) -> Vec<(usize, &'a [u8])> {
        let Args { pos, size, start, end, .. } = *self.args;
        let start = if start > end { usize::MAX } else { start };
        let back = self.line.cursor.checked_sub(size).unwrap_or(usize::MAX);
        let own = [
            (Param::Start, start, text),
            (Param::End, end, text),
            (Param::Size, back, text),
            (Param::Pos, pos, self.args.buf.as_slice()),
        ];
        let own = own.into_iter().filter(|&(param, ..)| self.takes(param)).map(|(_, place, text)| (place, text));
        [(self.line.cursor, text)].into_iter().chain(own).collect()
    }

    /// Check 6 of a dedent: the cut of a line ends inside a character. The cut is as long as the amount says, or as the
    /// white space in front of the line, where that is shorter.
    fn cuts_inside(&self, text: &[u8], touched: impl FnOnce() -> Vec<usize>) -> bool {
        if !self.takes(Param::Dedent) || self.args.dedent == 0 {
            return false;
        }
        let end = |start| start + white_front(&text[start..]).min(self.args.amount.into());
        touched().into_iter().any(|start| splits(text, end(start)))
    }
}

/// The length of the white space in front of a line.
fn white_front(line: &[u8]) -> usize {
    let mut len = 0;
    while let Some((_, bytes)) = first_character(&line[len..]).filter(|&(c, _)| is_white(c) && c != 0x0A) {
        len += bytes;
    }
    len
}

/// Checks 2 to 8: the log's lists, or the number by which the call is refused, the lowest whose check fails. `touched`
/// is where the lines start that an indent touches.
pub fn lent<'a>(input: &EditInput<'a>, touched: impl FnOnce() -> Vec<usize>) -> Result<Lists<'a>, u32> {
    if input.is_oversized() {
        return Err(2);
    }
    if input.is_unknown() {
        return Err(3);
    }
    let text = input.text.filter(|_| !input.is_foreign()).ok_or(4u32)?;
    let places = input.places(text);
    if places.iter().any(|(place, text)| *place > text.len()) {
        return Err(5);
    }
    if places.iter().any(|(place, text)| splits(text, *place)) || input.cuts_inside(text, touched) {
        return Err(6);
    }
    input.loan.lists().ok_or(8)
}

/// The undo list's used lengths after an edit, or the number by which it is refused. `heard` is what the Rust's call
/// changes.
pub fn edit_call(
    input: &EditInput,
    touched: impl FnOnce() -> Vec<usize>,
    heard: impl FnOnce() -> Vec<Heard>,
) -> Result<Used, u32> {
    let lists = lent(input, touched)?;
    let heard = heard();
    if is_overlong(input.line.len, &heard, input.size) {
        return Err(9);
    }
    recorded(&input.loan, lists.undo.last(), &heard).ok_or(10)
}

/// Check 9: a text that passes C after one of these changes.
fn is_overlong(mut len: usize, heard: &[Heard], size: usize) -> bool {
    heard.iter().any(|change| {
        len = len.checked_add_signed(change.more).expect("no more is cut than there is");
        len > size
    })
}

/// Check 10: the undo list's used lengths after these changes, if each of them has room. What a change joins is the
/// newest record there is by then.
fn recorded(loan: &Loan, newest: Option<&Change<&str>>, heard: &[Heard]) -> Option<Used> {
    let mut loan = *loan;
    let mut rust = lists::changeset(newest.map_or(&[], std::slice::from_ref), &[], loan.log.level);
    for Heard { call, .. } in heard {
        let undo: Vec<Change<&str>> = lists::undo(&rust).collect();
        let growth = (call.entry().grows)(&undo, loan.log.level, &call.args);
        if loan.is_full(&growth) {
            return None;
        }
        loan.log.undo = growth.after(loan.log.undo);
        (call.entry().rust)(&mut rust, &call.args);
    }
    Some(loan.log.undo)
}
