//! The inputs of the calls that are lent a text and do not write, in four parts: small texts with every argument, small
//! texts with every call, characters and faults, texts of every length.
use crate::account;
use crate::checks::MAX_TEXT;
use crate::r#gen::{BLOCK, CODE_POINTS, Draft, FAULTS, FOREIGN, Rng, SMALL};
use crate::r#gen::{
    behind, boundaries, boundary, code_args, drawn_args, drawn_text, members, small_args, small_text, small_texts,
    spoil,
};
use crate::line_calls::{Args, Case, ENTRIES, Param, VI_CHAR_SEARCH, compare};
use crate::shrink;
use crate::tally::Tally;

/// Calls on one drawn text.
const CALLS: usize = 4;

struct Runner<'a> {
    tally: &'a mut Tally,
    done: u64,
    /// Tell each input before its call.
    trace: bool,
}

/// `n` comparisons, or the account of the first difference.
pub fn run(n: u64, seed: u64, trace: bool, tally: &mut Tally) -> Result<(), String> {
    let mut rng = Rng::new(seed);
    let mut runner = Runner { tally, done: 0, trace };
    let letters = every_argument(&mut runner, n / 4)?;
    each_call(&mut runner, &mut rng, letters, n / 2)?;
    characters_and_faults(&mut runner, &mut rng, n / 6)?;
    every_length(&mut runner, &mut rng, n)
}

impl Runner<'_> {
    fn step(&mut self, row: usize, case: &mut Case, cursor: usize, args: &Args) -> Result<(), String> {
        let entry = &ENTRIES[row];
        if self.trace {
            println!("{}", account::input(entry, case, cursor, args));
        }
        self.done += 1;
        match compare(entry, case, cursor, args) {
            Ok(answer) => {
                self.tally.note(row, answer.number);
                Ok(())
            }
            Err(found) => Err(self.account(row, shrink::Differing::new(case, cursor, args, found))),
        }
    }

    fn account(&self, row: usize, found: shrink::Differing) -> String {
        let entry = &ENTRIES[row];
        let small = shrink::smallest(entry, found);
        let input = account::input(entry, &small.case, small.cursor, &small.args);
        format!("difference in comparison {}, made smaller\n{input}{}", self.done, account::answers(&small.difference))
    }
}

/// Every small text with every boundary as its cursor and all small arguments, length by length as far as `share`
/// comparisons reach. Answers the first length that was left out.
fn every_argument(runner: &mut Runner, share: u64) -> Result<u32, String> {
    let mut letters = 0;
    while runner.done + texts_and_cursors(letters) * most_calls(letters) <= share {
        for number in 0..small_texts(letters) {
            let text = small_text(number, letters);
            let calls: Vec<Vec<Args>> = ENTRIES.iter().map(|entry| small_args(entry.takes, &text)).collect();
            let mut case = Case::new(text.as_bytes(), text.len());
            for cursor in boundaries(text.as_bytes()) {
                for (row, all) in calls.iter().enumerate() {
                    for args in all {
                        runner.step(row, &mut case, cursor, args)?;
                    }
                }
            }
        }
        letters += 1;
    }
    Ok(letters)
}

/// The small texts of this length times their boundaries.
fn texts_and_cursors(letters: u32) -> u64 {
    small_texts(letters) as u64 * u64::from(letters + 1)
}

/// The most calls with small arguments that a text of this length has: its letters are distinct, which is more to
/// search for, and of two bytes, which is one place more for each.
fn most_calls(letters: u32) -> u64 {
    let distinct: String = SMALL.iter().cycle().take(letters as usize).collect();
    let calls: usize = ENTRIES.iter().map(|entry| small_args(entry.takes, &distinct).len()).sum();
    calls as u64 + u64::from(letters)
}

/// The small texts from this length on, with every boundary as the cursor: each call once, with drawn arguments and
/// drawn bytes behind the text.
fn each_call(runner: &mut Runner, rng: &mut Rng, first: u32, share: u64) -> Result<(), String> {
    let mut letters = first;
    let limit = runner.done + share;
    while runner.done + texts_and_cursors(letters) * ENTRIES.len() as u64 <= limit {
        for number in 0..small_texts(letters) {
            let text = small_text(number, letters).into_bytes();
            let mut case = lent(rng, &text);
            for cursor in boundaries(&text) {
                for row in 0..ENTRIES.len() {
                    runner.step(row, &mut case, cursor, &drawn_args(rng, &text))?;
                }
            }
        }
        letters += 1;
    }
    Ok(())
}

/// The text in a buffer with drawn bytes behind it.
fn lent(rng: &mut Rng, text: &[u8]) -> Case {
    let mut buffer = text.to_vec();
    buffer.extend(behind(rng, MAX_TEXT - text.len()));
    Case::new(&buffer, text.len())
}

/// Characters and bytes one by one, as far as three quarters of `share` reach, then drawn faults.
fn characters_and_faults(runner: &mut Runner, rng: &mut Rng, share: u64) -> Result<(), String> {
    let limit = runner.done + share;
    let codes: usize = ENTRIES.iter().map(|entry| code_args(entry.takes).len()).sum();
    let parts: [(Part, usize); 4] = [
        (every_code_point, CODE_POINTS as usize * 3),
        (every_member, members().count() * codes),
        (foreign_anywhere, FOREIGN.len() * (BLOCK + 1)),
        (every_pair, PAIRS),
    ];
    for (part, cost) in parts {
        if runner.done + cost as u64 <= limit - share / 4 {
            part(runner)?;
        }
    }
    while runner.done < limit {
        faults(runner, rng)?;
    }
    Ok(())
}

type Part = fn(&mut Runner) -> Result<(), String>;

/// Each code point as a text and, in both calls that search, as the character.
fn every_code_point(runner: &mut Runner) -> Result<(), String> {
    let mut line = Case::new(b"a", 1);
    for c in 0..CODE_POINTS {
        let text = char::from_u32(c).unwrap().to_string();
        let mut case = Case::new(text.as_bytes(), text.len());
        runner.step(c as usize % ENTRIES.len(), &mut case, 0, &Args::default())?;
        let args = Args { mvt: VI_CHAR_SEARCH, ch: c, ..Args::default() };
        for row in (0..ENTRIES.len()).filter(|&row| ENTRIES[row].uses(&args).contains(&Param::Ch)) {
            runner.step(row, &mut line, 0, &args)?;
        }
    }
    Ok(())
}

/// Each character of the repertoire, before and behind the cursor: its class and width show in where the calls lead.
fn every_member(runner: &mut Runner) -> Result<(), String> {
    for c in members() {
        let text = format!("-{c}-\n-{c}-");
        let mut case = Case::new(text.as_bytes(), text.len());
        for (row, entry) in ENTRIES.iter().enumerate() {
            for args in code_args(entry.takes) {
                runner.step(row, &mut case, 1 + c.len_utf8(), &args)?;
            }
        }
    }
    Ok(())
}

/// Foreign bytes at every place of a line of ASCII.
fn foreign_anywhere(runner: &mut Runner) -> Result<(), String> {
    for (number, foreign) in FOREIGN.iter().enumerate() {
        for place in 0..=BLOCK {
            let text = [&vec![b'a'; place], *foreign, &vec![b'a'; BLOCK - place]].concat();
            let mut case = Case::new(&text, text.len());
            runner.step((number + place) % ENTRIES.len(), &mut case, 0, &Args::default())?;
        }
    }
    Ok(())
}

const PAIRS: usize = 0x10000;

/// Every text of two bytes.
fn every_pair(runner: &mut Runner) -> Result<(), String> {
    for pair in 0..PAIRS {
        let mut case = Case::new(&(pair as u16).to_be_bytes(), 2);
        runner.step(pair % ENTRIES.len(), &mut case, 0, &Args::default())?;
    }
    Ok(())
}

/// An input with one to three faults.
fn faults(runner: &mut Runner, rng: &mut Rng) -> Result<(), String> {
    let row = rng.below(ENTRIES.len());
    let (few, some, most) = (rng.below(24), rng.below(300), MAX_TEXT - rng.below(2));
    let len = if rng.one_in(20) { most } else { rng.pick(&[few, few, few, some]) };
    let text = drawn_text(rng, len);
    let mut draft = Draft { cursor: boundary(rng, &text), args: drawn_args(rng, &text), buffer: text, len };
    draft.buffer.extend(behind(rng, MAX_TEXT - len));
    let uses = ENTRIES[row].uses(&draft.args);
    let count = rng.pick(&[1, 1, 1, 2, 2, 3]);
    let mut faults: Vec<usize> = (0..count).map(|_| rng.below(FAULTS.len())).collect();
    faults.sort_unstable();
    for fault in faults {
        spoil(rng, &mut draft, &uses, FAULTS[fault]);
    }
    let mut case = Case::new(&draft.buffer, draft.len);
    runner.step(row, &mut case, draft.cursor, &draft.args)
}

/// Drawn texts until `n` comparisons are done: every fourth has the next length up to 4,096 bytes, the others are
/// short.
fn every_length(runner: &mut Runner, rng: &mut Rng, n: u64) -> Result<(), String> {
    for turn in 0.. {
        let short = rng.below(40);
        let len = if turn % 4 == 0 { turn / 4 % (MAX_TEXT + 1) } else { short };
        let text = drawn_text(rng, len);
        let mut case = lent(rng, &text);
        for _ in 0..CALLS {
            if runner.done >= n {
                return Ok(());
            }
            let row = rng.below(ENTRIES.len());
            let cursor = boundary(rng, &text);
            runner.step(row, &mut case, cursor, &drawn_args(rng, &text))?;
        }
    }
    Ok(())
}
