//! The log of document 01, "Log and ring": changes and their layout in bytes; and by how much a call makes the undo
//! list longer, from the rules of recording.
use crate::checks::{first_character, is_alphanumeric, is_text};
use crate::ffi::Used;
use crate::log_calls::Args;

/// A change with its place and its texts.
#[derive(Clone, Debug)]
pub enum Change<T> {
    Begin,
    End,
    Insert(usize, T),
    Delete(usize, T),
    Replace(usize, T, T),
}
use Change::*;

/// Lists in bytes.
#[derive(Default, PartialEq, Eq)]
pub struct Bytes {
    pub records: Vec<u8>,
    pub texts: Vec<u8>,
}

impl Bytes {
    pub fn used(&self) -> Used {
        Used { records: self.records.len(), texts: self.texts.len() }
    }

    /// Puts a change behind the others.
    pub fn push<T: AsRef<str>>(&mut self, change: &Change<T>) {
        match change {
            Begin => self.records.push(1),
            End => self.records.push(2),
            Insert(place, text) => self.record(3, *place, &[text.as_ref()]),
            Delete(place, text) => self.record(4, *place, &[text.as_ref()]),
            Replace(place, old, new) => self.record(5, *place, &[old.as_ref(), new.as_ref()]),
        }
    }

    /// One byte of kind, place and lengths of 2 bytes each, little-endian; the texts.
    fn record(&mut self, kind: u8, place: usize, texts: &[&str]) {
        self.records.push(kind);
        self.number(place);
        for text in texts {
            self.number(text.len());
            self.texts.extend_from_slice(text.as_bytes());
        }
    }

    fn number(&mut self, number: usize) {
        let number = u16::try_from(number).expect("check 10");
        self.records.extend_from_slice(&number.to_le_bytes());
    }
}

/// The list that these bytes are: none where they break the layout.
pub fn list<'a>(mut records: &[u8], mut texts: &'a [u8]) -> Option<Vec<Change<&'a str>>> {
    let mut all = Vec::new();
    while let Some((kind, rest)) = records.split_first() {
        records = rest;
        all.push(match kind {
            1 => Begin,
            2 => End,
            3 | 4 => {
                let [place, len] = numbers(&mut records)?;
                let text = text(&mut texts, len)?;
                if *kind == 3 { Insert(place, text) } else { Delete(place, text) }
            }
            5 => {
                let [place, old, new] = numbers(&mut records)?;
                Replace(place, text(&mut texts, old)?, text(&mut texts, new)?)
            }
            _ => return None,
        });
    }
    texts.is_empty().then_some(all)
}

/// Takes numbers of 2 bytes, little-endian, from the front of a record's body.
fn numbers<const N: usize>(records: &mut &[u8]) -> Option<[usize; N]> {
    let (body, rest) = records.split_at_checked(2 * N)?;
    *records = rest;
    Some(std::array::from_fn(|i| usize::from(body[2 * i]) + 256 * usize::from(body[2 * i + 1])))
}

/// Takes a text of the repertoire from the front of a list's texts.
fn text<'a>(texts: &mut &'a [u8], len: usize) -> Option<&'a str> {
    let (text, rest) = texts.split_at_checked(len)?;
    *texts = rest;
    is_text(text).then(|| std::str::from_utf8(text).expect("check 4"))
}

/// What a call does to the undo list: by how much its used lengths grow, the place that a new record stores, the level
/// of the group that it opens; 0 where there is none.
#[derive(Default)]
pub struct Growth {
    pub records: isize,
    pub texts: isize,
    pub place: usize,
    pub level: usize,
}

impl Growth {
    /// The used lengths afterwards.
    pub fn after(&self, undo: Used) -> Used {
        let grown = |used: usize, more| used.checked_add_signed(more).expect("no more goes than there is");
        Used { records: grown(undo.records, self.records), texts: grown(undo.texts, self.texts) }
    }
}

/// The undo list, oldest first.
type Undo<'a> = [Change<&'a str>];

/// The size of the record of an Insert or a Delete, and of a Replace.
const ONE_TEXT: isize = 5;
const TWO_TEXTS: isize = 7;

pub fn none(_: &Undo, _: usize, _: &Args) -> Growth {
    Growth::default()
}

pub fn begin(_: &Undo, level: usize, _: &Args) -> Growth {
    Growth { records: 1, level: level + 1, ..Growth::default() }
}

/// For each level a Begin on top is dropped; where there is none, as after the first End, an End is put there.
pub fn end(undo: &Undo, level: usize, _: &Args) -> Growth {
    let begins = undo.iter().rev().take_while(|change| matches!(change, Begin)).count();
    let dropped = begins.min(level);
    Growth { records: (level - dropped) as isize - dropped as isize, ..Growth::default() }
}

/// Alphanumeric characters join an Insert that ends where they are put in.
pub fn insert(undo: &Undo, _: usize, args: &Args) -> Growth {
    let follows = matches!(undo.last(), Some(Insert(place, text)) if place + text.len() == args.idx);
    let len = char::from_u32(args.ch).expect("check 4").len_utf8();
    edit(ONE_TEXT, args.idx, len, is_alphanumeric(args.ch) && follows)
}

pub fn insert_str(_: &Undo, _: usize, args: &Args) -> Growth {
    if args.buf.is_empty() { Growth::default() } else { edit(ONE_TEXT, args.idx, args.buf.len(), false) }
}

/// A single alphanumeric character joins a Delete at its place, or one that begins where it ends. Then the place that
/// is stored is no higher than it was.
pub fn delete(undo: &Undo, _: usize, args: &Args) -> Growth {
    let Some((c, len)) = first_character(&args.buf) else { return Growth::default() };
    let single = len == args.buf.len() && is_alphanumeric(c);
    let follows = matches!(undo.last(), Some(Delete(place, _))
        if *place == args.idx || Some(*place) == args.idx.checked_add(len));
    edit(ONE_TEXT, args.idx, args.buf.len(), single && follows)
}

/// A replacement joins a Replace whose new text ends where it is.
pub fn replace(undo: &Undo, _: usize, args: &Args) -> Growth {
    let follows = matches!(undo.last(), Some(Replace(place, _, new)) if place + new.len() == args.idx);
    edit(TWO_TEXTS, args.idx, args.old.len() + args.new.len(), follows)
}

/// What joins the newest record adds no record and stores no place.
fn edit(size: isize, place: usize, texts: usize, joins: bool) -> Growth {
    let (records, place) = if joins { (0, 0) } else { (size, place) };
    Growth { records, texts: texts as isize, place, level: 0 }
}

/// The first records stay, as many as are asked for.
pub fn truncate(undo: &Undo, _: usize, args: &Args) -> Growth {
    let mut dropped = Bytes::default();
    undo.iter().skip(args.len).for_each(|change| dropped.push(change));
    let Used { records, texts } = dropped.used();
    Growth { records: -(records as isize), texts: -(texts as isize), ..Growth::default() }
}
