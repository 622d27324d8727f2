//! Inputs of the calls that are lent a log: drawn steps, small records and small arguments.
use crate::ffi::Used;
use crate::r#gen::{Rng, drawn_text, member};
use crate::log_calls::{Args, ENTRIES, Entry, Lends, Param};
use crate::log_case::Case;
use crate::log_checks::{MAX_LEVEL, MAX_PLACE, MAX_TEXTS};
use crate::log_faults::drawn_fault;
use crate::log_lists::{Call, Step};
use crate::log_model::{Bytes, Change};
use crate::undo::lists;

/// Texts that recording tells apart: none, one alphanumeric character of one or two bytes, another character, a cluster
/// of two characters, two clusters, a mark.
const SMALL_TEXTS: [&str; 8] = ["", "a", "\u{DF}", "-", "e\u{301}", "ab", "\r\n", "\u{301}"];

/// Room for everything that a few small steps may record.
pub const AMPLE: usize = 64;

/// Sizes of buffers: mostly so small that the log is full after a few calls.
pub fn drawn_size(rng: &mut Rng, limit: usize) -> usize {
    let (few, some) = (rng.below(41), rng.below(600));
    if rng.one_in(40) { limit - rng.below(2) } else { rng.pick(&[few, some]) }
}

/// How often each call comes, in the order of the table: all alike, mostly typing, mostly groups.
pub type Mix = [usize; ENTRIES.len()];
pub const MIXES: [Mix; 3] = [[1, 8, 8, 8, 8, 8, 8, 8, 8], [0, 1, 1, 8, 2, 8, 8, 1, 2], [0, 12, 8, 4, 1, 1, 1, 3, 3]];

/// A step that goes on from this log: mostly a call, one in eight with faults.
pub fn drawn_step(rng: &mut Rng, case: &Case, mix: &Mix) -> Step {
    let count = lists::undo(case.rust()).len() + lists::redo(case.rust()).len();
    match rng.below(64) {
        0..=4 => Step::Seam(rng.below(count + 1)),
        5 => Step::Seam(count.saturating_sub(1)),
        6 => Step::Lay(drawn_change(rng, 5)),
        7 => Step::Level(rng.pick(&[0, 1, 2, 3, MAX_LEVEL - 1, MAX_LEVEL])),
        8..=15 => {
            let call = drawn_call(rng, case, mix);
            drawn_fault(rng, case, call)
        }
        _ => Step::Call(drawn_call(rng, case, mix)),
    }
}

/// A fit call.
fn drawn_call(rng: &mut Rng, case: &Case, mix: &Mix) -> Call {
    let row = rng.weighted(mix);
    Call { row, args: drawn_args(rng, &ENTRIES[row], case) }
}

fn drawn_args(rng: &mut Rng, entry: &Entry, case: &Case) -> Args {
    let loan = case.loan();
    let room = loan.texts.len() - loan.log.undo.texts;
    let count = lists::undo(case.rust()).len();
    let mut args = Args::default();
    for param in entry.takes {
        match param {
            Param::Ch => args.ch = drawn_character(rng),
            Param::Buf => args.buf = drawn_buf(rng, room),
            Param::Old => args.old = drawn_buf(rng, room),
            Param::New => args.new = drawn_buf(rng, room),
            Param::Len => args.len = drawn_mark(rng, count),
            // It depends on the text.
            Param::Idx => {}
        }
    }
    if entry.takes.contains(&Param::Idx) {
        let last = lists::undo(case.rust()).next_back();
        args.idx = drawn_place(rng, last, args.buf.len());
    }
    args
}

fn drawn_character(rng: &mut Rng) -> u32 {
    let any = member(rng);
    rng.pick(&['a', 'b', 'Z', '7', '\u{DF}', '\u{178}', '\u{BD}', '-', ' ', '\n', '\u{301}', any]) as u32
}

/// A text to record: mostly a small one, sometimes one that just fits the room there is or just does not.
fn drawn_buf(rng: &mut Rng, room: usize) -> Vec<u8> {
    let small = rng.pick(&SMALL_TEXTS);
    let (few, some, near) = (rng.below(5), rng.below(24), (room + rng.below(3)).saturating_sub(1));
    match rng.below(48) {
        0..=31 => small.into(),
        32..=43 => drawn_text(rng, few),
        44..=45 => drawn_text(rng, some),
        46 => drawn_text(rng, near),
        _ if rng.one_in(100) => vec![b'a'; MAX_TEXTS + rng.pick(&[0, 1, 2, 6, MAX_TEXTS + 1])],
        _ => vec![b'a'],
    }
}

/// A number of records to keep.
fn drawn_mark(rng: &mut Rng, count: usize) -> usize {
    let any = rng.below(count + 2);
    let last = count.saturating_sub(1);
    rng.pick(&[any, any, any, any, last, last, count, any + 65536, any + (1 << 32), usize::MAX])
}

/// A place: mostly one at which a change of this length may join the newest record, or one beside it; sometimes one
/// that is the same in 2 bytes, or one that 2 bytes cannot hold.
fn drawn_place(rng: &mut Rng, last: Option<Change<&str>>, len: usize) -> usize {
    let (at, joins) = match last {
        Some(Change::Insert(place, text) | Change::Replace(place, _, text)) => (place, place + text.len()),
        // In front of 0 lies the place with which the sum would wrap.
        Some(Change::Delete(place, _)) if place >= len || rng.one_in(8) => (place, place.wrapping_sub(len)),
        Some(Change::Delete(place, _)) => (place, place),
        _ => (0, 1),
    };
    let fit = rng.pick(&[at, joins, joins, joins]);
    match rng.below(48) {
        0..=33 => fit,
        34..=35 => fit.wrapping_add(1),
        36..=37 => fit.wrapping_sub(1),
        38..=43 => rng.below(12),
        44 => fit.wrapping_add(MAX_PLACE + 1),
        45..=46 => MAX_PLACE - 2 + rng.below(5),
        _ => usize::MAX - rng.below(4),
    }
}

/// A record of any shape, each of its texts below `longest` bytes.
pub fn drawn_change(rng: &mut Rng, longest: usize) -> Change<String> {
    let (near, any) = (rng.below(12), rng.below(MAX_PLACE + 1));
    let place = rng.pick(&[near, near, near, any, MAX_PLACE]);
    let mut text = || {
        let len = rng.below(longest);
        String::from_utf8(drawn_text(rng, len)).unwrap()
    };
    let (old, new) = (text(), text());
    match rng.below(8) {
        0 => Change::Begin,
        1 => Change::End,
        2..=3 => Change::Insert(place, new),
        4..=5 => Change::Delete(place, old),
        _ => Change::Replace(place, old, new),
    }
}

/// Changes, and the room that they leave in the two buffers.
struct Filling {
    changes: Vec<Change<String>>,
    room: Used,
}

impl Filling {
    fn push(&mut self, change: Change<String>) {
        let mut bytes = Bytes::default();
        bytes.push(&change);
        self.room.records -= bytes.records.len();
        self.room.texts -= bytes.texts.len();
        self.changes.push(change);
    }

    /// Any changes with texts below `longest` bytes, as long as there is room for another and an Insert.
    fn edits(&mut self, rng: &mut Rng, longest: usize) {
        while self.room.records >= 12 && self.room.texts >= 2 * longest {
            self.push(drawn_change(rng, longest));
        }
    }

    /// Begins and Ends, up to these bytes of the room.
    fn groups(&mut self, rng: &mut Rng, rest: usize) {
        while self.room.records > rest {
            self.push(rng.pick(&[&Change::Begin, &Change::End]).clone());
        }
    }

    /// An Insert whose text takes the whole room.
    fn last_text(&mut self, rng: &mut Rng) {
        let text = drawn_text(rng, self.room.texts);
        self.push(Change::Insert(0, String::from_utf8(text).unwrap()));
    }
}

/// Records that fill the buffers of an empty log up to a few bytes: both by short texts, or the texts' by long ones, or
/// the records' by groups.
pub fn filling(rng: &mut Rng, case: &Case) -> Vec<Change<String>> {
    let few = rng.below(30);
    let mut spare = || rng.pick(&[0, 1, 5, 7, few]);
    let (records, texts) = (case.loan().records.len() - spare(), case.loan().texts.len() - spare());
    let mut filling = Filling { changes: Vec::new(), room: Used { records, texts } };
    match rng.below(3) {
        0 => {
            filling.edits(rng, 20);
            filling.groups(rng, 5);
            filling.last_text(rng);
        }
        1 => {
            filling.edits(rng, 3000);
            filling.last_text(rng);
        }
        _ => {
            filling.push(drawn_change(rng, 20));
            filling.groups(rng, 0);
        }
    }
    filling.changes
}

/// Every small record.
pub fn small_records() -> Vec<Change<String>> {
    let mut all = vec![Change::Begin, Change::End];
    for place in [1, 2] {
        for text in &SMALL_TEXTS[..3] {
            all.push(Change::Insert(place, text.to_string()));
            all.push(Change::Delete(place, text.to_string()));
            for old in &SMALL_TEXTS[..2] {
                all.push(Change::Replace(place, old.to_string(), text.to_string()));
            }
        }
    }
    all
}

/// Every call with small arguments.
pub fn small_calls() -> Vec<Call> {
    let mut all = Vec::new();
    for (row, entry) in ENTRIES.iter().enumerate().filter(|(_, entry)| entry.lends != Lends::Nothing) {
        fill(entry.takes, Args::default(), &mut |args| all.push(Call { row, args }));
    }
    all
}

/// The combinations of small values for these parameters.
fn fill(takes: &[Param], args: Args, found: &mut impl FnMut(Args)) {
    let Some((param, rest)) = takes.split_first() else { return found(args) };
    let bytes = |text: &&str| text.as_bytes().to_vec();
    let values: Vec<Args> = match param {
        Param::Idx => (0..5).map(|idx| Args { idx, ..args.clone() }).collect(),
        Param::Len => (0..3).map(|len| Args { len, ..args.clone() }).collect(),
        Param::Ch => "a\u{DF}-\u{301}".chars().map(|c| Args { ch: c as u32, ..args.clone() }).collect(),
        Param::Buf => SMALL_TEXTS[..6].iter().map(|text| Args { buf: bytes(text), ..args.clone() }).collect(),
        Param::Old => SMALL_TEXTS[..2].iter().map(|text| Args { old: bytes(text), ..args.clone() }).collect(),
        Param::New => SMALL_TEXTS[..3].iter().map(|text| Args { new: bytes(text), ..args.clone() }).collect(),
    };
    values.into_iter().for_each(|args| fill(rest, args, found));
}
