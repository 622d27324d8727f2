//! What a key costs beside the call on the line that it stands for, with rings of no, some and all slots in use, each of
//! them full: the library alone.
use std::cell::RefCell;
use std::hint::black_box;

use crate::editor::{Editor, List};
use crate::ffi::{self, Line, Log, Ring, Used};
use crate::inputs::{ENGLISH, Session, full, text};
use crate::library::Library;
use crate::sizes::{RECORDS, SLOT, SLOTS, TEXT, TEXTS};
use crate::tables::{figure, grouped, head, line};
use crate::timing::{Check, Figure, checks};

/// The slots in use.
const RINGS: [usize; 3] = [0, 4, SLOTS];

/// A call that is timed, and the key that stands for it.
#[derive(Clone, Copy)]
enum Call {
    /// A space at the end: it joins no record.
    Insert,
    /// From the middle on.
    Forward,
}

const CALLS: [(&str, Call, &[u8]); 2] =
    [("type a space at the end", Call::Insert, b" "), ("C-f in the middle", Call::Forward, b"\x06")];

/// The largest buffers with a text of 1,000 bytes, this undo list, and a ring with so many full slots. The states are
/// handed over by value and never taken back, so that a call can be made again and again.
struct Lent {
    text: Vec<u8>,
    records: Vec<u8>,
    texts: Vec<u8>,
    slots: Vec<u8>,
    lens: Vec<u8>,
    line: Line,
    log: Log,
    ring: Ring,
}

fn in_front(bytes: &[u8], size: usize) -> Vec<u8> {
    let mut buffer = bytes.to_vec();
    buffer.resize(size, 0);
    buffer
}

impl Lent {
    fn new(call: Call, undo: &List, count: usize) -> Lent {
        let (len, slot) = (Session::<Library>::TEXT, text(ENGLISH, SLOT));
        let used = Used { records: undo.records.len(), texts: undo.texts.len() };
        let length = u16::try_from(SLOT).expect("2 bytes").to_le_bytes();
        Lent {
            text: in_front(text(ENGLISH, len).as_bytes(), TEXT),
            records: in_front(&undo.records, RECORDS),
            texts: in_front(&undo.texts, TEXTS),
            slots: in_front(slot.repeat(count).as_bytes(), SLOTS * SLOT),
            lens: in_front(&length.repeat(count), SLOTS * 2),
            line: Line { len, cursor: if let Call::Insert = call { len } else { len / 2 } },
            log: Log { undo: used, ..Log::default() },
            ring: Ring { size: SLOTS, count, index: 0, action: 2, yanked: 0 },
        }
    }

    fn call(&mut self, call: Call) -> bool {
        let [text, records, texts] =
            [&mut self.text, &mut self.records, &mut self.texts].map(|buffer| (buffer.as_mut_ptr(), buffer.len()));
        let (line, log) = (black_box(self.line), black_box(self.log));
        // SAFETY: three buffers, each with its length.
        let number = unsafe {
            match call {
                Call::Insert => {
                    let ch = ' '.into();
                    ffi::tlf_line_insert(text.0, text.1, records.0, records.1, texts.0, texts.1, line, log, ch, 1)
                        .number
                }
                Call::Forward => ffi::tlf_line_move_forward(text.0, text.1, line, 1).number,
            }
        };
        number == 0
    }

    fn press(&mut self, key: &[u8]) -> bool {
        let [text, records, texts, slots, lens] =
            [&mut self.text, &mut self.records, &mut self.texts, &mut self.slots, &mut self.lens]
                .map(|buffer| (buffer.as_mut_ptr(), buffer.len()));
        let (line, log, ring) = (black_box(self.line), black_box(self.log), black_box(self.ring));
        // SAFETY: five buffers, each with its length; the key lies apart from them.
        #[rustfmt::skip]
        let answer = unsafe {
            ffi::tlf_line_key(
                text.0, text.1, records.0, records.1, texts.0, texts.1, slots.0, slots.1, lens.0, lens.1, line, log,
                ring, key.as_ptr(), key.len(),
            )
        };
        answer.number == 0
    }
}

fn logs() -> [(&'static str, List); 2] {
    let session = || Session::<Library>::new(vec![full()]).at(full()).state().undo;
    [("log empty", List::default()), ("log full", session())]
}

fn timed<'a>(call: impl Fn() -> bool + 'a) -> Check<'a> {
    Check { call: Box::new(call), by: 1 }
}

/// For each call and log the call's figure, and the key's with each ring.
pub fn measure() -> Vec<Figure> {
    let logs = logs();
    let rows = CALLS.into_iter().flat_map(|(_, call, key)| logs.iter().map(move |(_, undo)| (call, key, undo)));
    rows.flat_map(|(call, key, undo)| {
        let alone = RefCell::new(Lent::new(call, undo, 0));
        let [none, some, all] = RINGS.map(|count| RefCell::new(Lent::new(call, undo, count)));
        let pressed = |lent: RefCell<Lent>| timed(move || lent.borrow_mut().press(black_box(key)));
        checks([timed(|| alone.borrow_mut().call(call)), pressed(none), pressed(some), pressed(all)])
    })
    .collect()
}

pub fn print(figures: &[Figure]) {
    let rings = RINGS.map(|count| format!("key, {count} full slots"));
    let names: Vec<&str> = ["call", "on text 1,000", "records", "the call alone"].into_iter().collect();
    let columns: Vec<&str> = names.into_iter().chain(rings.iter().map(String::as_str)).collect();
    head("A key and the call on the line that it stands for, nanoseconds a call", &columns);
    let rows = CALLS.into_iter().flat_map(|(name, ..)| logs().map(|(log, undo)| (name, log, undo.records.len())));
    for ((name, log, records), four) in rows.zip(figures.chunks(1 + RINGS.len())) {
        let cells = [name.into(), log.into(), grouped(records)].into_iter().chain(four.iter().map(figure));
        line(&cells.collect::<Vec<String>>());
    }
}
