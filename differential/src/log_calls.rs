//! The calls that are lent a log: each with its parameters, the numbers that it can give, the library's entry, the
//! Rust's method, and by how much it makes the undo list longer.
use crate::ffi::{self, Log, LogAnswer};
use crate::log_model::{self, Change, Growth};
use crate::oracle::{self, Outcome, done};
use crate::undo::Changeset;

#[derive(Clone, Copy, Debug, PartialEq, Eq)]
pub enum Param {
    Idx,
    Ch,
    Buf,
    Old,
    New,
    Len,
}
use Param::*;

/// The arguments of any call: each call takes its own.
#[derive(Clone, Debug, Default)]
pub struct Args {
    pub idx: usize,
    pub ch: u32,
    pub buf: Vec<u8>,
    pub old: Vec<u8>,
    pub new: Vec<u8>,
    pub len: usize,
}

/// What a call does with the two buffers.
#[derive(Clone, Copy, PartialEq, Eq)]
pub enum Lends {
    /// They are not lent to it.
    Nothing,
    /// It writes nothing there.
    ToRead,
    ToWrite,
}
use Lends::*;

/// A buffer as the C interface takes it: pointer and length.
pub type Raw = (*mut u8, usize);

/// What the library is lent: the two buffers, the log's state, and the texts among the arguments.
pub struct Input {
    pub records: Raw,
    pub texts: Raw,
    pub log: Log,
    pub buf: Raw,
    pub old: Raw,
    pub new: Raw,
}

pub struct Entry {
    pub name: &'static str,
    pub takes: &'static [Param],
    pub gives: &'static [u32],
    pub lends: Lends,
    pub ask: unsafe fn(&Input, &Args) -> LogAnswer,
    pub rust: fn(&mut Changeset, &Args) -> Outcome,
    pub grows: fn(&[Change<&str>], usize, &Args) -> Growth,
}

const RECORDS: &[u32] = &[0, 2, 4, 8, 10];

pub const BEGIN: &str = "tlf_log_begin";
pub const END: &str = "tlf_log_end";
pub const LAST_INSERT: &str = "tlf_log_last_insert";

pub static ENTRIES: [Entry; 9] = [
    Entry {
        name: "tlf_log_new",
        takes: &[],
        gives: &[0],
        lends: Nothing,
        ask: |_, _| LogAnswer { number: 0, from: 0, to: 0, log: unsafe { ffi::tlf_log_new() } },
        rust: |c, _| {
            *c = Changeset::new();
            done(true)
        },
        grows: log_model::none,
    },
    Entry {
        name: BEGIN,
        takes: &[],
        gives: &[0, 2, 8, 10],
        lends: ToWrite,
        ask: |i, _| unsafe { ffi::tlf_log_begin(i.records.0, i.records.1, i.texts.0, i.texts.1, i.log) },
        rust: |c, _| Some((c.begin(), 0)),
        grows: log_model::begin,
    },
    Entry {
        name: END,
        takes: &[],
        gives: &[0, 1, 2, 8, 10],
        lends: ToWrite,
        ask: |i, _| unsafe { ffi::tlf_log_end(i.records.0, i.records.1, i.texts.0, i.texts.1, i.log) },
        rust: |c, _| done(c.end()),
        grows: log_model::end,
    },
    Entry {
        name: "tlf_log_insert",
        takes: &[Idx, Ch],
        gives: RECORDS,
        lends: ToWrite,
        ask: |i, a| unsafe { ffi::tlf_log_insert(i.records.0, i.records.1, i.texts.0, i.texts.1, i.log, a.idx, a.ch) },
        rust: |c, a| {
            c.insert(a.idx, char::from_u32(a.ch).expect("check 4"));
            done(true)
        },
        grows: log_model::insert,
    },
    Entry {
        name: "tlf_log_insert_str",
        takes: &[Idx, Buf],
        gives: RECORDS,
        lends: ToWrite,
        ask: |i, a| unsafe {
            ffi::tlf_log_insert_str(i.records.0, i.records.1, i.texts.0, i.texts.1, i.log, a.idx, i.buf.0, i.buf.1)
        },
        rust: |c, a| {
            c.insert_str(a.idx, text(&a.buf));
            done(true)
        },
        grows: log_model::insert_str,
    },
    Entry {
        name: "tlf_log_delete",
        takes: &[Idx, Buf],
        gives: RECORDS,
        lends: ToWrite,
        ask: |i, a| unsafe {
            ffi::tlf_log_delete(i.records.0, i.records.1, i.texts.0, i.texts.1, i.log, a.idx, i.buf.0, i.buf.1)
        },
        rust: |c, a| {
            c.delete(a.idx, text(&a.buf));
            done(true)
        },
        grows: log_model::delete,
    },
    Entry {
        name: "tlf_log_replace",
        takes: &[Idx, Old, New],
        gives: RECORDS,
        lends: ToWrite,
        ask: |i, a| unsafe {
            let (records, texts, old, new) = (i.records, i.texts, i.old, i.new);
            ffi::tlf_log_replace(records.0, records.1, texts.0, texts.1, i.log, a.idx, old.0, old.1, new.0, new.1)
        },
        rust: |c, a| {
            c.replace(a.idx, text(&a.old), text(&a.new));
            done(true)
        },
        grows: log_model::replace,
    },
    Entry {
        name: "tlf_log_truncate",
        takes: &[Len],
        gives: &[0, 2, 8],
        lends: ToWrite,
        ask: |i, a| unsafe { ffi::tlf_log_truncate(i.records.0, i.records.1, i.texts.0, i.texts.1, i.log, a.len) },
        rust: |c, a| {
            c.truncate(a.len);
            done(true)
        },
        grows: log_model::truncate,
    },
    Entry {
        name: LAST_INSERT,
        takes: &[],
        gives: &[0, 1, 2, 8],
        lends: ToRead,
        ask: |i, _| unsafe { ffi::tlf_log_last_insert(i.records.0, i.records.1, i.texts.0, i.texts.1, i.log) },
        rust: |c, _| oracle::last_insert(c),
        grows: log_model::none,
    },
];

/// The row of this call.
pub fn row(name: &str) -> usize {
    ENTRIES.iter().position(|entry| entry.name == name).expect(name)
}

fn text(bytes: &[u8]) -> &str {
    std::str::from_utf8(bytes).expect("check 4")
}
