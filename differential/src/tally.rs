//! How often each call, and each kind of key, gave each number, and whether each was seen with every number that it can give.

use crate::{edit_calls, key_calls, line_calls, log_calls, ring_calls, slip_case, undo_calls};

const NUMBERS: usize = 15;

/// The first rows of the tables in `calls`.
pub const LOGS: usize = line_calls::ENTRIES.len();
pub const EDITS: usize = LOGS + log_calls::ENTRIES.len();
pub const UNDOS: usize = EDITS + edit_calls::ENTRIES.len();
pub const RINGS: usize = UNDOS + undo_calls::ENTRIES.len();
pub const KEYS: usize = RINGS + ring_calls::ENTRIES.len();
pub const SLIPS: usize = KEYS + key_calls::KINDS.len();

/// All calls and kinds of keys in the order of their tables, each with the numbers that it can give.
pub fn calls() -> impl Iterator<Item = (&'static str, &'static [u32])> {
    let lines = line_calls::ENTRIES.iter().map(|entry| (entry.name, entry.gives));
    let logs = log_calls::ENTRIES.iter().map(|entry| (entry.name, entry.gives));
    let edits = edit_calls::ENTRIES.iter().map(|entry| (entry.name, entry.gives));
    let undos = undo_calls::ENTRIES.iter().map(|entry| (entry.name, entry.gives));
    let rings = ring_calls::ENTRIES.iter().map(|entry| (entry.name, entry.gives));
    let keys = key_calls::KINDS.iter().map(|kind| (kind.name, kind.gives));
    let slips = [(slip_case::NAME, slip_case::GIVES)];
    lines.chain(logs).chain(edits).chain(undos).chain(rings).chain(keys).chain(slips)
}

pub struct Row {
    name: &'static str,
    gives: &'static [u32],
    seen: [u64; NUMBERS],
}

pub struct Tally {
    rows: Vec<Row>,
}

impl Tally {
    pub fn new() -> Tally {
        Tally { rows: calls().map(|(name, gives)| Row { name, gives, seen: [0; NUMBERS] }).collect() }
    }

    pub fn note(&mut self, row: usize, number: u32) {
        self.rows[row].seen[number as usize] += 1;
    }

    /// The table: a dash where the call cannot give the number.
    pub fn print(&self) {
        let columns: Vec<u32> =
            (0..NUMBERS as u32).filter(|n| self.rows.iter().any(|row| row.gives.contains(n))).collect();
        print!("{:28}", "call");
        columns.iter().for_each(|n| print!("{n:>9}"));
        println!();
        for row in &self.rows {
            print!("{:28}", row.name);
            for &n in &columns {
                match (row.gives.contains(&n), row.seen[n as usize]) {
                    (false, 0) => print!("{:>9}", "-"),
                    (_, seen) => print!("{seen:>9}"),
                }
            }
            println!();
        }
    }

    /// The calls and numbers that belong together and were not seen, or were seen and do not belong together.
    pub fn gaps(&self) -> Vec<String> {
        let mut gaps = Vec::new();
        for row in &self.rows {
            for (n, &seen) in row.seen.iter().enumerate() {
                match (row.gives.contains(&(n as u32)), seen > 0) {
                    (true, false) => gaps.push(format!("{} was never seen to give {n}", row.name)),
                    (false, true) => gaps.push(format!("{} gave {n}, which it is not listed to give", row.name)),
                    _ => {}
                }
            }
        }
        gaps
    }
}
