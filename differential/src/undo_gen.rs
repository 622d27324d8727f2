//! Inputs of undo, redo and cancel: counts, marks, and records that fit a text.
use crate::checks::{MAX_TEXT, splits};
use crate::edit_case::Case;
use crate::edit_lists::{Call, Step};
use crate::r#gen::{FIRST, Rng, boundary, drawn_text};
use crate::line_calls::Args;
use crate::log_checks::{MAX_LEVEL, MAX_PLACE};
use crate::log_lists;
use crate::log_model::{Bytes, Change};
use crate::undo::{Changeset, lists};
use crate::undo_calls::{ENTRIES, row};
use crate::undo_checks::Way;

/// Any of the three calls.
pub fn drawn_undo(rng: &mut Rng, case: &Case) -> Call {
    let name = ENTRIES[rng.below(ENTRIES.len())].name;
    drawn_call(rng, name, case)
}

/// The call with a count or a mark that this log may hold.
pub fn drawn_call(rng: &mut Rng, name: &str, case: &Case) -> Call {
    let changes = case.log.rust();
    let records = lists::undo(changes).len() + lists::redo(changes).len();
    let args = Args { n: drawn_count(rng, records), mark: drawn_mark(rng, changes), ..FIRST };
    Call::undo(row(name), args)
}

/// A count: mostly a small one, or one around the number of records.
pub fn drawn_count(rng: &mut Rng, records: usize) -> u16 {
    let any = rng.below(records + 3) as u16;
    rng.pick(&[0, 1, 1, 1, 2, 2, 3, any, any, u16::MAX])
}

/// A mark: mostly that of a Begin, of which the newest may have no End after it.
fn drawn_mark(rng: &mut Rng, changes: &Changeset) -> usize {
    let records: Vec<Change<&str>> = lists::undo(changes).collect();
    let begins: Vec<usize> = (0..records.len()).filter(|&mark| matches!(records[mark], Change::Begin)).collect();
    let any = rng.below(records.len() + 2);
    let newest = begins.last().copied().unwrap_or(any);
    let begin = if begins.is_empty() { any } else { rng.pick(&begins) };
    match rng.below(12) {
        0..=4 => newest,
        5..=6 => begin,
        7 => begin + 1,
        8 => any,
        // The same in 2 bytes, and in 4.
        9 => begin + (1 << 16),
        10 => begin + (1 << 32),
        _ => usize::MAX,
    }
}

/// What a text and the records that fit it are like: both are shorter, and the records of a list fewer, than said here.
pub struct Shape {
    text: usize,
    records: usize,
    /// The longest text of a record, and the longest piece of the text that it stands for.
    longest: usize,
    /// One record in so many is at any other place.
    misplaced: usize,
}

pub const SMALL: Shape = Shape { text: 12, records: 8, longest: 4, misplaced: 24 };

/// Texts and lists that are long enough for records to lie far from each other; the last put in long texts.
pub const FAR: [Shape; 3] = [
    Shape { text: 4_000, records: 1_200, longest: 4, misplaced: 4_000 },
    Shape { text: 4_000, records: 500, longest: 40, misplaced: 2_000 },
    Shape { text: 3_000, records: 300, longest: 130, misplaced: 1_000 },
];

/// A record that fits this text, which becomes what undoing or redoing it leaves.
fn fitting_record(rng: &mut Rng, text: &mut Vec<u8>, way: Way, shape: &Shape) -> Change<String> {
    let place = boundary(rng, text);
    let mut end = place + rng.below(shape.longest + 1).min(text.len() - place);
    while splits(text, end) {
        end -= 1;
    }
    let goes = String::from_utf8(text[place..end].to_vec()).unwrap();
    let len = rng.below(shape.longest + 1);
    let comes = String::from_utf8(drawn_text(rng, len)).unwrap();
    text.splice(place..end, comes.bytes());
    let other = rng.pick(&[0, 1, text.len(), text.len() + 1, MAX_PLACE]);
    let place = if rng.one_in(shape.misplaced) { other } else { place };
    let (old, new) = if way == Way::Undo { (comes, goes) } else { (goes, comes) };
    match (old.is_empty(), new.is_empty()) {
        (true, _) if !rng.one_in(4) => Change::Insert(place, new),
        (_, true) if !rng.one_in(4) => Change::Delete(place, old),
        _ => Change::Replace(place, old, new),
    }
}

/// How often a Begin or an End stands before a record: one time in so many.
const GROUPS: [usize; 3] = [2, 4, 100];

/// Records that fit this text one after the other, the first to be met first, with Begins and Ends among them; the
/// longest that the text becomes goes to `longest`.
fn fitting_records(rng: &mut Rng, text: &str, way: Way, shape: &Shape, longest: &mut usize) -> Vec<Change<String>> {
    let mut text = text.as_bytes().to_vec();
    let mut all = Vec::new();
    let groups = rng.pick(&GROUPS);
    for _ in 0..rng.below(shape.records) {
        while rng.one_in(groups) {
            all.push(rng.pick(&[&Change::Begin, &Change::End]).clone());
        }
        all.push(fitting_record(rng, &mut text, way, shape));
        *longest = text.len().max(*longest);
    }
    all
}

/// A text with its cursor and a log whose records fit it: the sizes of the buffers, and the steps from an empty text
/// and an empty log on. Mostly the longest text just fits, or just does not.
pub fn fitting(rng: &mut Rng, shape: &Shape) -> ([usize; 3], Vec<Step>) {
    let len = rng.below(shape.text);
    let text = String::from_utf8(drawn_text(rng, len)).unwrap();
    let mut longest = len;
    let mut undo = fitting_records(rng, &text, Way::Undo, shape, &mut longest);
    undo.reverse();
    let redo = fitting_records(rng, &text, Way::Redo, shape, &mut longest);
    let mut bytes = Bytes::default();
    undo.iter().chain(&redo).for_each(|change| bytes.push(change));
    let size = rng.pick(&[longest, longest, longest.saturating_sub(1), longest + 1, longest + 40]);
    let size = size.min(MAX_TEXT).max(len);
    let sizes = [size, bytes.records.len() + rng.below(3), bytes.texts.len() + rng.below(3)];

    let cursor = boundary(rng, text.as_bytes());
    let level = rng.pick(&[0, 1, 2, 3, MAX_LEVEL]);
    let mut steps = vec![Step::Text(text, cursor)];
    let seam = undo.len();
    steps.extend(undo.into_iter().chain(redo).map(Step::lay));
    steps.extend([Step::seam(seam), Step::Log(log_lists::Step::Level(level))]);
    (sizes, steps)
}
