//! The inputs of keys, in six parts: every key of a few bytes, foreign bytes, small texts with every key, the largest
//! texts, logs and rings, faults, drawn lists.
use crate::checks::MAX_TEXT;
use crate::edit_gen::another_text;
use crate::edit_lists;
use crate::r#gen::{
    BLOCK, CODE_POINTS, Rng, boundaries, boundary, drawn_text, foreign_places, small_text, small_texts,
};
use crate::key_calls::{ESC, KINDS};
use crate::key_case::Case;
use crate::key_gen::{Habit, damaged, drawn_key, drawn_step};
use crate::key_lists::{Played, Step};
use crate::log_checks::{MAX_RECORDS, MAX_TEXTS};
use crate::log_gen::{AMPLE, drawn_size, small_records};
use crate::log_model::Change;
use crate::ring_case::Damage;
use crate::ring_checks::{KILL, LENGTH, MAX_SLOTS, OTHER, SLOT, YANK};
use crate::ring_gen::{self, drawn_buffers, drawn_ring};
use crate::ring_lists;
use crate::runner::Runner;
use crate::session_gen::{drawn_conclusions, end, more_records};
use crate::tally::Tally;

/// What was played.
#[derive(Default)]
pub struct Counts {
    /// Comparisons of keys and of the calls between them.
    pub keys: u64,
    pub lists: u64,
    /// Those at whose end demand 3 is due.
    pub due: u64,
    pub conclusions: u64,
}

/// `n` comparisons, or the account of the first difference.
pub fn run(n: u64, seed: u64, trace: bool, tally: &mut Tally) -> Result<Counts, String> {
    let mut rng = Rng::new(seed);
    let mut runner = Runner::new(tally, "keys", trace);
    let mut counts = Counts::default();
    every_key(&mut runner, n / 8)?;
    foreign_anywhere(&mut runner, n / 24)?;
    small(&mut runner, n / 4)?;
    largest(&mut runner, n)?;
    faults(&mut runner, &mut rng, n)?;
    drawn(&mut runner, &mut rng, n, &mut counts)?;
    counts.keys = runner.done;
    Ok(counts)
}

fn text(text: &str, cursor: usize) -> Step {
    Step::Line(edit_lists::Step::Text(text.into(), cursor))
}

/// A ring of this size in this state, as if it had come there by calls.
fn ring_of(size: usize, texts: &[&str], index: usize, action: usize, yanked: usize) -> Step {
    let text = |(slot, text): (usize, &&str)| Damage::Text(slot, text.as_bytes().into());
    let mut set: Vec<Damage> = texts.iter().enumerate().map(text).collect();
    set.extend([Damage::Size(size), Damage::Count(texts.len()), Damage::Index(index)]);
    set.extend([Damage::Action(action), Damage::Yanked(yanked)]);
    Step::Ring(ring_lists::Step::Set(set))
}

/// Rings that keys tell apart: none, empty, with one slot and two, an empty slot, each last action, a yank's size that
/// leads back to a boundary, inside a character, beyond the text.
fn small_rings() -> Vec<Step> {
    vec![
        ring_of(2, &["q", "a\u{DF}"], 1, KILL, 0),
        ring_of(2, &["q", "a\u{DF}"], 1, YANK, 1),
        ring_of(2, &["q", "a\u{DF}"], 0, YANK, 2),
        ring_of(2, &["q"], 0, OTHER, 0),
        ring_of(1, &["-"], 0, YANK, 0),
        ring_of(2, &["", "b"], 1, YANK, 1),
        ring_of(1, &[""], 0, KILL, 0),
        ring_of(2, &[], 0, OTHER, 0),
        ring_of(2, &[], 0, YANK, 3),
        ring_of(0, &[], 0, KILL, 0),
        ring_of(0, &[], 0, OTHER, 0),
    ]
}

/// The sizes of buffers for those rings, and for texts and logs of these sizes.
fn with_small_ring([size, records, texts]: [usize; 3]) -> [usize; 5] {
    [size, records, texts, 2 * SLOT, 2 * LENGTH]
}

/// Every byte by itself, behind ESC, behind a count, behind a count and ESC; every code point to U+03FF by itself,
/// behind a count and behind ESC; every pair of bytes, as far as `share` reaches.
fn every_key(runner: &mut Runner, share: u64) -> Result<(), String> {
    let limit = runner.done + share;
    let rings = small_rings();
    let bytes = (0..=u8::MAX).flat_map(|byte| {
        [vec![byte], vec![ESC, byte], vec![ESC, b'2', byte], vec![ESC, b'2', ESC, byte], vec![byte, b'a']]
    });
    let points = (0..CODE_POINTS).filter_map(char::from_u32).flat_map(|c| {
        let bytes = c.to_string().into_bytes();
        [bytes.clone(), [&[ESC, b'2'], &bytes[..]].concat(), [&[ESC], &bytes[..]].concat()]
    });
    let pairs = (0..=u16::MAX).map(|pair| pair.to_be_bytes().to_vec());
    for (turn, key) in bytes.chain(points).chain(pairs).enumerate() {
        if runner.done >= limit {
            break;
        }
        let record = Step::Line(edit_lists::Step::lay(Change::Insert(0, "ab".into())));
        let ring = rings[turn % rings.len()].clone();
        let steps = [ring, text("ab cd\u{DF}\n", 2), record, Step::Key(key)];
        runner.list(with_small_ring([AMPLE; 3]), &steps)?;
    }
    Ok(())
}

/// Foreign bytes at every place of a row of letters that is handed as a key. As far as `share` reaches.
fn foreign_anywhere(runner: &mut Runner, share: u64) -> Result<(), String> {
    let limit = runner.done + share;
    let ring = ring_of(1, &["q"], 0, KILL, 0);
    let mut played = runner.list(with_small_ring([AMPLE; 3]), &[ring, text("ab", 2)])?;
    for (place, foreign, _) in foreign_places() {
        if runner.done >= limit {
            break;
        }
        let mut key = vec![b'a'; BLOCK];
        key[place..].iter_mut().zip(foreign).for_each(|(byte, &foreign)| *byte = foreign);
        runner.step(&mut played, Step::Key(key))?;
    }
    Ok(())
}

/// Every bound key, by itself and with counts.
fn small_keys() -> Vec<Vec<u8>> {
    let bare = KINDS.iter().map(|kind| kind.bytes).filter(|bytes| !bytes.is_empty());
    let all: Vec<Vec<u8>> =
        bare.chain(["a", " ", "\n", "\u{DF}", "\u{301}"].map(str::as_bytes)).map(Into::into).collect();
    let counted = |count: &str| all.iter().map(|key| [&[ESC], count.as_bytes(), key].concat()).collect::<Vec<_>>();
    [all.clone(), counted("0"), counted("2"), counted("65535")].concat()
}

/// Small texts, every boundary as the cursor, with every key; in turn with each small record in front of the seam or
/// behind it, and with each small ring. As far as `share` reaches.
fn small(runner: &mut Runner, share: u64) -> Result<(), String> {
    let limit = runner.done + share;
    let (rings, records, keys) = (small_rings(), small_records(), small_keys());
    let mut turn = 0;
    for letters in 0.. {
        for number in 0..small_texts(letters) {
            let line = small_text(number, letters);
            for cursor in boundaries(line.as_bytes()) {
                for key in &keys {
                    let record = Step::Line(edit_lists::Step::lay(records[turn % records.len()].clone()));
                    let seam = Step::Line(edit_lists::Step::seam(turn / 2 % 2));
                    let ring = rings[turn % rings.len()].clone();
                    turn += 1;
                    if runner.done >= limit {
                        return Ok(());
                    }
                    let steps = [ring, text(&line, cursor), record, seam, Step::Key(key.clone())];
                    in_room(runner, line.len(), &steps)?;
                }
            }
        }
    }
    Ok(())
}

/// The steps with ample room, with just the room that they take, and with a byte less of each buffer. The text before
/// has `len` bytes.
fn in_room(runner: &mut Runner, len: usize, steps: &[Step]) -> Result<(), String> {
    let played = runner.list(with_small_ring([AMPLE; 3]), steps)?;
    let log = played.case.line.log.loan().log;
    let sizes = [played.case.line.line().len, log.undo.records, log.undo.texts];
    for which in 0..=sizes.len() {
        let mut sizes = sizes;
        sizes.iter_mut().skip(which).take(1).for_each(|size| *size = size.saturating_sub(1));
        sizes[0] = sizes[0].max(len);
        runner.list(with_small_ring(sizes), steps)?;
    }
    Ok(())
}

/// Rings of 16 slots, each of 4,096 bytes or one less, with a text of as many bytes: every key, in the largest buffers.
fn largest(runner: &mut Runner, n: u64) -> Result<(), String> {
    let sizes = [MAX_TEXT, MAX_RECORDS, MAX_TEXTS, MAX_SLOTS * SLOT, MAX_SLOTS * LENGTH];
    for (less, action) in [(0, KILL), (0, YANK), (1, KILL), (1, YANK), (1, OTHER)] {
        let slot = "a".repeat(SLOT - less);
        let slots: Vec<&str> = vec![&slot; MAX_SLOTS];
        let yanked = if action == YANK { SLOT - less } else { 0 };
        let state = ring_of(MAX_SLOTS, &slots, MAX_SLOTS - 1, action, yanked);
        for line in [&slot[1..], &slot] {
            for key in small_keys().into_iter().filter(|key| key != b"\x1B65535\x19") {
                if runner.done >= n {
                    return Ok(());
                }
                runner.list(sizes, &[state.clone(), text(line, line.len() - 1), Step::Key(key)])?;
            }
        }
    }
    Ok(())
}

/// Keys on one text, log and ring, each with faults of its own.
const KEYS: usize = 4;

/// A sixth of `n` comparisons, if so many are left: single keys with faults.
fn faults(runner: &mut Runner, rng: &mut Rng, n: u64) -> Result<(), String> {
    let limit = n.min(runner.done + n / 6);
    while runner.done < limit {
        let mut played = start(runner, rng)?;
        runner.go_on(&mut played, KEYS, limit, |case| {
            let key = drawn_key(rng, case);
            damaged(rng, case, key)
        })?;
    }
    Ok(())
}

/// A drawn text and a drawn ring in buffers of drawn sizes: one ring in four has texts that go to the last byte of a
/// slot.
fn start(runner: &mut Runner, rng: &mut Rng) -> Result<Played, String> {
    let habit = if rng.one_in(4) { ring_gen::Habit::Long } else { ring_gen::Habit::Short };
    let size = ring_gen::drawn_size(rng);
    let [slots, lens] = drawn_buffers(rng, size);
    let line = [drawn_size(rng, MAX_TEXT), drawn_size(rng, MAX_RECORDS), drawn_size(rng, MAX_TEXTS)];
    let ring: Vec<Step> = drawn_ring(rng, size, habit).into_iter().map(Step::Ring).collect();
    let mut played = runner.list([line[0], line[1], line[2], slots, lens], &ring)?;
    let text = Step::Line(another_text(rng, &played.case.line));
    runner.step(&mut played, text)?;
    Ok(played)
}

/// The most steps of a drawn list.
const STEPS: usize = 40;

/// Drawn lists until `n` comparisons are done; at the end of those that are lists of demand 3 its conclusions.
fn drawn(runner: &mut Runner, rng: &mut Rng, n: u64, counts: &mut Counts) -> Result<(), String> {
    while runner.done < n {
        counts.lists += 1;
        let habit = rng.pick(&[Habit::Any, Habit::Session]);
        let mut played = start(runner, rng)?;
        if habit == Habit::Session {
            // A first text with an empty log, with a boundary as the cursor.
            let len = rng.below(30).min(played.case.line.size());
            let bytes = drawn_text(rng, len);
            let cursor = boundary(rng, &bytes);
            runner.step(&mut played, text(&String::from_utf8(bytes).unwrap(), cursor))?;
        }
        for _ in 0..rng.below(STEPS) {
            if runner.done >= n {
                return Ok(());
            }
            let step = drawn_step(rng, &played.case, habit, played.conditions.open().len());
            runner.step(&mut played, step)?;
        }
        close(runner, &mut played, n)?;
        if habit == Habit::Session && played.conditions.first_text().is_some() {
            counts.due += 1;
            for conclusion in drawn_conclusions(rng) {
                runner.step(&mut played, Step::Line(conclusion))?;
                counts.conclusions += 1;
            }
        }
    }
    Ok(())
}

/// Ends what groups are open. An end that has no room for its Ends is tried again with more.
fn close(runner: &mut Runner, played: &mut Played, n: u64) -> Result<(), String> {
    let level = |case: &Case| case.line.log.loan().log.level;
    while !played.conditions.open().is_empty() && runner.done < n {
        if runner.step(played, Step::Line(end()))? == Some(10) {
            let more = more_records(&played.case.line, level(&played.case));
            runner.step(played, Step::Line(more))?;
        }
    }
    Ok(())
}
