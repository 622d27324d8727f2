//! The recorded answers: of the comparisons in which the library gives what is expected, a sample for each call and
//! number. A Rattle program replays it; what a line means stands at the head of each data file (`record_heads.rs`).
use std::cell::RefCell;
use std::collections::{BTreeMap, HashSet};
use std::path::Path;
use std::{fs, io};

use crate::ffi::{EditAnswer, LineAnswer, Log, LogAnswer, Ring, RingAnswer};
use crate::r#gen::Rng;
use crate::key_case::Expected;
use crate::log_model::Bytes;
use crate::record_heads::{ANSWERS, HEAD, KEY, RING, SLIP, STATE};
use crate::record_keys::LentKey;
pub use crate::record_lines::{Lent, LentRing};
use crate::record_slips::LentSlip;
use crate::tally::calls;
use crate::{edit_calls, key_calls, line_calls, log_calls, ring_calls, slip_case, undo_calls};

/// The longest line of a sample, and of one that has to do with a limit.
const LONGEST: usize = 300;
const LONGEST_AT_A_LIMIT: usize = 600;

/// The most bytes that a data file may have: a Rattle program's local array is no larger.
const MOST: usize = 262_144;

/// How many lines are kept of a call with a number.
struct Share {
    done: usize,
    nothing: usize,
    other: usize,
    at_a_limit: usize,
}

impl Share {
    fn of(&self, number: u32, at_a_limit: bool) -> usize {
        match (at_a_limit, number) {
            (true, _) => self.at_a_limit,
            (_, 0) => self.done,
            (_, 1) => self.nothing,
            _ => self.other,
        }
    }
}

/// A data file, and how many lines of each call it has.
struct Data {
    file: &'static str,
    share: Share,
    /// What a line is.
    form: &'static str,
    has: fn(&str) -> bool,
}

fn is_line(name: &str) -> bool {
    line_calls::ENTRIES.iter().any(|entry| entry.name == name)
}

fn is_edit(name: &str) -> bool {
    edit_calls::ENTRIES.iter().any(|entry| entry.name == name)
}

fn is_key(name: &str) -> bool {
    key_calls::KINDS.iter().any(|kind| kind.name == name)
}

fn is_slip(name: &str) -> bool {
    name == slip_case::NAME
}

/// The entries of the crate `c_kill`.
#[rustfmt::skip]
const KILLS: [&str; 10] = [
    "tlf_line_kill", "tlf_line_delete", "tlf_line_backspace", "tlf_line_kill_line", "tlf_line_kill_buffer",
    "tlf_line_discard_line", "tlf_line_discard_buffer", "tlf_line_delete_prev_word", "tlf_line_delete_word",
    "tlf_line_delete_to",
];

static FILES: [Data; 8] = [
    Data {
        file: "line.txt",
        share: Share { done: 40, nothing: 24, other: 12, at_a_limit: 2 },
        form: STATE,
        has: is_line,
    },
    Data {
        file: "edit.txt",
        share: Share { done: 40, nothing: 24, other: 12, at_a_limit: 2 },
        form: STATE,
        has: |name| is_edit(name) && !KILLS.contains(&name),
    },
    Data {
        file: "kill.txt",
        share: Share { done: 40, nothing: 24, other: 12, at_a_limit: 2 },
        form: STATE,
        has: |name| KILLS.contains(&name),
    },
    Data {
        file: "log.txt",
        share: Share { done: 70, nothing: 50, other: 30, at_a_limit: 4 },
        form: STATE,
        has: |name| log_calls::ENTRIES.iter().any(|entry| entry.name == name),
    },
    Data {
        file: "undo.txt",
        share: Share { done: 120, nothing: 60, other: 40, at_a_limit: 4 },
        form: STATE,
        has: |name| undo_calls::ENTRIES.iter().any(|entry| entry.name == name),
    },
    Data {
        file: "ring.txt",
        share: Share { done: 120, nothing: 60, other: 40, at_a_limit: 16 },
        form: RING,
        has: |name| ring_calls::ENTRIES.iter().any(|entry| entry.name == name),
    },
    Data { file: "key.txt", share: Share { done: 10, nothing: 8, other: 4, at_a_limit: 1 }, form: KEY, has: is_key },
    Data {
        file: "slip.txt",
        share: Share { done: 200, nothing: 0, other: 40, at_a_limit: 8 },
        form: SLIP,
        has: is_slip,
    },
];

struct Sample {
    seen: u64,
    lines: Vec<String>,
}

/// A sample's call, its number, whether it has to do with a limit, and the part of the run.
type Key = (&'static str, u32, bool, usize);

struct Recorder {
    rng: Rng,
    part: usize,
    samples: BTreeMap<Key, Sample>,
}

/// The parts of the keys and of the slips, the last. There alone they are recorded, and nothing else.
const KEYS: usize = 6;
const SLIPS: usize = 7;

/// Is a part of the run the one in which this call is recorded?
fn is_part_of(name: &str, part: usize) -> bool {
    match part {
        KEYS => is_key(name),
        SLIPS => is_slip(name),
        _ => !is_key(name) && !is_slip(name),
    }
}

thread_local! {
    static RECORDER: RefCell<Option<Recorder>> = const { RefCell::new(None) };
}

/// From here on answers are recorded.
pub fn start(seed: u64) {
    let recorder = Recorder { rng: Rng::new(!seed), part: 0, samples: BTreeMap::new() };
    RECORDER.with(|r| *r.borrow_mut() = Some(recorder));
}

/// The next part of the run: each has its own samples.
pub fn next_part() {
    RECORDER.with(|r| r.borrow_mut().iter_mut().for_each(|recorder| recorder.part += 1));
}

fn data_of(name: &str) -> &'static Data {
    FILES.iter().find(|data| (data.has)(name)).expect(name)
}

impl Recorder {
    /// A sample of all that come by in the parts that are for them, each as likely as the others, but for those whose line is too long.
    fn note(&mut self, name: &'static str, number: u32, at_a_limit: bool, line: impl FnOnce() -> String) {
        if !is_part_of(name, self.part) {
            return;
        }
        let share = data_of(name).share.of(number, at_a_limit);
        let longest = if at_a_limit { LONGEST_AT_A_LIMIT } else { LONGEST };
        let key = (name, number, at_a_limit, self.part);
        let sample = self.samples.entry(key).or_insert(Sample { seen: 0, lines: Vec::new() });
        sample.seen += 1;
        let full = sample.lines.len() == share;
        let place = if full { self.rng.below(sample.seen as usize) } else { sample.lines.len() };
        if place >= share {
            return;
        }
        let line = line();
        if line.len() > longest {
            return;
        }
        match full {
            true => sample.lines[place] = line,
            false => sample.lines.push(line),
        }
    }

    /// The lines of a call with a number: as many from one part of the run as from another, none of them twice.
    fn drawn(&self, name: &str, number: u32, at_a_limit: bool) -> Vec<String> {
        let share = data_of(name).share.of(number, at_a_limit);
        let wanted = |key: &Key| key.0 == name && key.1 == number && key.2 == at_a_limit;
        let parts: Vec<&Vec<String>> =
            self.samples.iter().filter(|(key, _)| wanted(key)).map(|(_, sample)| &sample.lines).collect();
        let longest = parts.iter().map(|lines| lines.len()).max().unwrap_or(0);
        let in_turn = (0..longest).flat_map(|turn| parts.iter().filter_map(move |lines| lines.get(turn)));
        let mut seen = HashSet::new();
        let mut lines: Vec<String> = in_turn.filter(|line| seen.insert(*line)).take(share).cloned().collect();
        lines.sort_by_key(|line| (line.len(), line.clone()));
        lines
    }
}

fn note(name: &'static str, number: u32, at_a_limit: bool, line: impl FnOnce() -> String) {
    RECORDER.with(|r| {
        if let Some(recorder) = r.borrow_mut().as_mut() {
            recorder.note(name, number, at_a_limit, line);
        }
    });
}

/// The name in a data file: that of the C interface without its first word.
fn short(name: &str) -> &str {
    name.strip_prefix("tlf_").expect("an entry's name")
}

/// A call that is lent a text or a log, what it leaves in the three buffers, and its answer.
pub fn call(name: &'static str, lent: Lent, due: [Option<&[u8]>; 3], answer: &EditAnswer) {
    if !lent.fits() {
        return;
    }
    note(name, answer.number, lent.is_at_a_limit(), || lent.line(short(name), due, answer));
}

/// The two lists' bytes, where there are any.
pub fn lists(due: Option<&Bytes>) -> [Option<&[u8]>; 2] {
    [due.map(|lists| &lists.records[..]), due.map(|lists| &lists.texts[..])]
}

/// A call that is lent a text and does not write.
pub fn line_call(name: &'static str, lent: Lent, answer: &LineAnswer) {
    let &LineAnswer { number, from, to, line } = answer;
    call(name, lent, [None; 3], &EditAnswer { number, from, to, line, log: Log::default() });
}

/// A call that is lent a log alone.
pub fn log_call(name: &'static str, lent: Lent, due: Option<&Bytes>, answer: &LogAnswer) {
    let &LogAnswer { number, from, to, log } = answer;
    let [records, texts] = lists(due);
    let line = lent.line;
    call(name, lent, [None, records, texts], &EditAnswer { number, from, to, line, log });
}

/// A call that is lent a ring, what it leaves, and its answer.
pub fn ring_call(name: &'static str, lent: LentRing, texts: Option<&Vec<Vec<u8>>>, ring: &Ring, answer: &RingAnswer) {
    if !lent.fits() {
        return;
    }
    note(name, answer.number, lent.is_at_a_limit(), || lent.line(short(name), texts, ring, answer));
}

/// A key, what it is lent, and what it answers and leaves.
pub fn key(name: &'static str, lent: LentKey, due: &Expected) {
    if !lent.fits() {
        return;
    }
    note(name, due.answer.number, lent.is_at_a_limit(), || lent.line(due));
}

/// A slip, what it is lent, and what it answers and leaves.
pub fn slip(lent: LentSlip, due: &slip_case::Expected) {
    if !lent.fits() {
        return;
    }
    note(slip_case::NAME, due.answer.number, lent.is_at_a_limit(), || lent.line(short(slip_case::NAME), due));
}

/// The data files that are written by hand, or by tools/key_cases and tools/slip_cases.
const CASES: [&str; 4] = ["movement_cases.txt", "edit_cases.txt", "key_cases.txt", "slip_cases.txt"];

/// What the program prints of the longest slips, which no data file has.
const LONGEST_SLIPS: &str = "longest slips: 2 agree\n";

/// What the program prints of a file where all of it agrees: its name, and how many lines of each call it has.
fn printed(file: &str, text: &str) -> String {
    let mut counts: Vec<(&str, usize)> = Vec::new();
    for line in text.lines().filter(|line| !line.starts_with('#')) {
        let name = line.split(' ').next().expect("a call's name");
        match counts.last_mut() {
            Some((last, count)) if *last == name => *count += 1,
            _ => counts.push((name, 1)),
        }
    }
    counts.iter().fold(format!("{file}\n"), |all, (name, count)| all + &format!("{name}: {count} agree\n"))
}

fn commented(text: &str) -> String {
    text.lines().map(|line| format!("# {line}\n")).collect()
}

/// Writes the data files of the program that replays them, and what it prints where all of it agrees, the cases too that
/// are written by hand, `stdout`: all of them, or none where a call has no line.
pub fn write(program: &Path, n: u64, seed: u64) -> io::Result<()> {
    RECORDER.with(|r| {
        let recorder = r.borrow();
        let recorder = recorder.as_ref().expect("started");
        let mut files = Vec::new();
        let mut stdout = String::new();
        for data in &FILES {
            let mut file = commented(&format!("Written by `differential/record {n} {seed}`; {}.", env!("VERSIONS")));
            file += &commented(data.form);
            file += &commented(HEAD);
            if data.form != SLIP {
                file += &commented(ANSWERS);
            }
            for (name, gives) in calls().filter(|(name, _)| (data.has)(name)) {
                for &number in gives {
                    let lines: Vec<String> =
                        [false, true].iter().flat_map(|&limit| recorder.drawn(name, number, limit)).collect();
                    if lines.is_empty() {
                        return Err(io::Error::other(format!("no line of {name} with {number} is short enough")));
                    }
                    lines.iter().for_each(|line| file += &format!("{line}\n"));
                }
            }
            assert!(file.len() <= MOST, "{} has {} bytes", data.file, file.len());
            stdout += &printed(data.file, &file);
            files.push((program.join("data").join(data.file), file));
        }
        for file in CASES {
            stdout += &printed(file, &fs::read_to_string(program.join("data").join(file))?);
        }
        stdout += LONGEST_SLIPS;
        files.push((program.join("stdout"), stdout));
        files.iter().try_for_each(|(path, text)| fs::write(path, text))
    })
}
