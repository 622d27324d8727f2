//! What the scans of a text and of a log cost by themselves, and undo and redo of whole logs: the library alone.
use std::cell::RefCell;
use std::hint::black_box;

use crate::editor::{Editor, List};
use crate::ffi::{self, Line, Log, Used};
use crate::inputs::{ENGLISH, MIXED, NO_ASCII, SHORT_LINES, Session, full, repeated};
use crate::library::Library;
use crate::sizes::{RECORDS, TEXTS};
use crate::tables::{figure, grouped, head, line};
use crate::timing::{Check, Figure, checks};

// The crate scan_bench.
unsafe extern "C" {
    fn tlf_bench_check_text(text: *const u8, len: usize) -> bool;
    fn tlf_bench_check_log(records: *const u8, records_len: usize, texts: *const u8, texts_len: usize, log: Log)
    -> u32;
}

fn scan(text: &[u8]) -> bool {
    // SAFETY: one buffer, with its length.
    unsafe { tlf_bench_check_text(text.as_ptr(), text.len()) }
}

/// std's `from_utf8` and a match over the same repertoire.
fn plain_rust(text: &[u8]) -> bool {
    let other = |c: char| matches!(c as u32, 0xA0..=0xAC | 0xAE..=0xB4 | 0xB6..=0xFF | 0x178 | 0x300..=0x333);
    let catalogue = |c| matches!(c, '\t' | '\n' | '\r' | ' '..='~') || other(c);
    std::str::from_utf8(text).is_ok_and(|text| text.chars().all(catalogue))
}

/// In nanoseconds a byte.
fn per_byte(scan: fn(&[u8]) -> bool, text: &[u8]) -> Check<'_> {
    Check { call: Box::new(move || scan(black_box(text))), by: text.len() }
}

fn texts() -> impl Iterator<Item = (&'static str, String)> {
    let pieces = [("ASCII", ENGLISH), ("ASCII, short lines", SHORT_LINES), ("mixed", MIXED), ("no ASCII", NO_ASCII)];
    let sized = |(name, piece)| [64, 1_000, 4_096, TEXTS].map(|len| (name, repeated(piece, len)));
    pieces.into_iter().flat_map(sized)
}

fn used(list: &List) -> Used {
    Used { records: list.records.len(), texts: list.texts.len() }
}

/// Insertions of a text, as many as fit the two buffers.
fn insertions(text: &str) -> List {
    let mut list = List::default();
    while list.records.len() + 5 <= RECORDS && list.texts.len() + text.len() <= TEXTS {
        list.push(3, Some(0), &[text]);
    }
    list
}

fn logs() -> [(&'static str, List); 5] {
    let begins = List { records: vec![1; RECORDS], texts: Vec::new() };
    [
        ("a session of typing words", Session::<Library>::new(vec![full()]).at(full()).state().undo),
        ("words of ten bytes", insertions("box 12, no")),
        ("words with accents", insertions("bo\u{ee}te, \u{e9}")),
        ("long texts", insertions(&repeated(ENGLISH, 4_096))),
        ("Begins alone", begins),
    ]
}

/// Checks 2 and 8, in nanoseconds a byte of records and texts together.
fn check_log(list: &List) -> Check<'_> {
    let log = Log { undo: used(list), ..Log::default() };
    let check = move || {
        let (records, texts, log) = (&list.records, &list.texts, black_box(log));
        // SAFETY: two buffers, each with its length.
        unsafe { tlf_bench_check_log(records.as_ptr(), records.len(), texts.as_ptr(), texts.len(), log) == 0 }
    };
    Check { call: Box::new(check), by: list.records.len() + list.texts.len() }
}

pub fn measure_scan() -> Vec<Figure> {
    let texts = texts().flat_map(|(_, text)| checks([scan, plain_rust].map(|scan| per_byte(scan, text.as_bytes()))));
    let logs = logs().into_iter().flat_map(|(_, list)| {
        if list.texts.is_empty() {
            let [log] = checks([check_log(&list)]);
            return [log, Figure::NONE];
        }
        checks([check_log(&list), per_byte(scan, &list.texts)])
    });
    texts.chain(logs).collect()
}

pub fn print_scan(figures: &[Figure]) {
    let mut figures = figures.iter();
    let mut next = || figure(figures.next().expect("a figure for each cell"));
    head("The scan of a text, nanoseconds a byte", &["text", "bytes", "scan", "from_utf8 and a match"]);
    for (name, text) in texts() {
        line(&[name.into(), grouped(text.len()), next(), next()]);
    }
    head(
        "Checks 2 and 8 of a log, nanoseconds a byte of records and texts, and the scan of its texts in one piece",
        &["log", "bytes of records", "bytes of texts", "checks 2 and 8", "scan"],
    );
    for (name, list) in logs() {
        line(&[name.into(), grouped(list.records.len()), grouped(list.texts.len()), next(), next()]);
    }
}

/// The calls, each on logs of so many records.
struct Whole {
    name: &'static str,
    /// The bytes of the text, and the places of the records: one at the first, the next at the second.
    text: usize,
    places: [usize; 2],
    /// Begin and End by turns, or two insertions and their deletions: when all are undone or redone, a text is as it was.
    groups: bool,
    count: usize,
}

fn wholes() -> Vec<Whole> {
    let rows = [
        ("Begin and End by turns", 1_000, [0, 0], true),
        ("insert and delete, empty text", 0, [0, 0], false),
        ("insert and delete, end of 1,000", 1_000, [1_000, 1_000], false),
        ("insert and delete, start of 1,000", 1_000, [0, 0], false),
        ("insert and delete, start of 4,070", 4_070, [0, 0], false),
        ("insert and delete, both ends of 1,000", 1_000, [0, 1_000], false),
        ("insert and delete, both ends of 4,070", 4_070, [0, 4_070], false),
    ];
    let sized = |(name, text, places, groups)| {
        let all = if groups { RECORDS } else { 6_500 };
        [4, 2, 1].map(|part| Whole { name, text, places, groups, count: all / part / 4 * 4 })
    };
    rows.into_iter().flat_map(sized).collect()
}

/// What is done with all of a log in one call.
#[derive(Clone, Copy, PartialEq)]
enum Walk {
    Undo,
    Redo,
    /// As a group that a Begin in front of it opens.
    Cancel,
}

impl Whole {
    fn list(&self, walk: Walk) -> List {
        let (mut list, words) = (List::default(), "box 12, no");
        if walk == Walk::Cancel {
            list.push(1, None, &[]);
        }
        let [first, second] = self.places;
        let behind = if first < second { second + words.len() } else { second };
        let four = [(3, first), (3, behind), (4, first), (4, second)];
        for i in 0..self.count {
            if self.groups {
                list.push(1 + (i % 2) as u8, None, &[]);
            } else {
                let (kind, place) = four[i % 4];
                list.push(kind, Some(place), &[words]);
            }
        }
        list
    }

    /// All of it in one call, in nanoseconds a record.
    fn check<'a>(&self, list: &'a List, walk: Walk) -> Check<'a> {
        let all = used(list);
        let log = match walk {
            Walk::Undo => Log { undo: all, ..Log::default() },
            Walk::Redo => Log { redo: all, ..Log::default() },
            Walk::Cancel => Log { undo: all, level: 1, ..Log::default() },
        };
        let line = Line { len: self.text, cursor: 0 };
        let buffer = RefCell::new(vec![b'a'; self.text + 20]);
        let check = move || {
            let mut text = buffer.borrow_mut();
            let (text, text_len) = (text.as_mut_ptr(), text.len());
            let (records, records_len) = (list.records.as_ptr(), list.records.len());
            let (texts, texts_len, log) = (list.texts.as_ptr(), list.texts.len(), black_box(log));
            // SAFETY: three buffers, each with its length.
            let answer = unsafe {
                match walk {
                    Walk::Undo => ffi::tlf_log_undo(text, text_len, records, records_len, texts, texts_len, line, log, u16::MAX),
                    Walk::Redo => ffi::tlf_log_redo(text, text_len, records, records_len, texts, texts_len, line, log, u16::MAX),
                    Walk::Cancel => ffi::tlf_log_cancel(text, text_len, records, records_len, texts, texts_len, line, log, 0),
                }
            };
            let left = if walk == Walk::Redo { answer.log.redo } else { answer.log.undo };
            answer.number <= 1 && answer.line.len == line.len && left.records == 0
        };
        Check { call: Box::new(check), by: self.count }
    }
}

pub fn measure_undo() -> Vec<Figure> {
    let three = |whole: Whole| {
        let (list, group) = (whole.list(Walk::Undo), whole.list(Walk::Cancel));
        let [undo, redo] = [Walk::Undo, Walk::Redo].map(|walk| whole.check(&list, walk));
        if whole.groups {
            let [undo, redo] = checks([undo, redo]);
            return [undo, redo, Figure::NONE];
        }
        checks([undo, redo, whole.check(&group, Walk::Cancel)])
    };
    wholes().into_iter().flat_map(three).collect()
}

pub fn print_undo(figures: &[Figure]) {
    head("A whole log in one call, nanoseconds a record", &["log", "records", "undo", "redo", "cancel"]);
    for (whole, three) in wholes().iter().zip(figures.chunks(3)) {
        line(&[whole.name.into(), grouped(whole.count), figure(&three[0]), figure(&three[1]), figure(&three[2])]);
    }
}
