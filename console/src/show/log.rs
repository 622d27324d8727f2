//! The log: its level and both lists, whole or what has changed in them.
use std::io::{self, Write};
use std::ops::Range;
use tulofewa::{Change, EditLine};

/// As many records of a list are shown when it has changed, of those that are not as before.
const MOST: usize = 10;
/// As many that are as before are shown too.
const FEW: usize = 3;

const AS_BEFORE: &str = "as before";
const LISTED: &str = "listed by show";

/// Where nothing from before is given, all is shown. The numbers of the undo list are the marks of `begin`; the redo
/// list goes on counting.
pub fn log(line: &EditLine, before: Option<&EditLine>, out: &mut impl Write) -> io::Result<()> {
    let [undo, redo] = lists(line);
    let [old_undo, old_redo] = before.map(lists).unwrap_or_default();
    let most = if before.is_some() { MOST } else { usize::MAX };
    let seam = undo.len();
    let end = seam.saturating_add(redo.len());

    let empty = if undo.is_empty() { ", nothing to undo" } else { "" };
    writeln!(out, "  log   level {}{empty}", line.level())?;
    // Calls change the undo list's end, where the newest is.
    let same = alike(undo.iter().zip(&old_undo));
    let shown = seam.saturating_sub(most).max(same);
    passed(0..same, AS_BEFORE, out)?;
    passed(same..shown, LISTED, out)?;
    records((0..).zip(&undo).skip(shown), out)?;

    if !redo.is_empty() {
        writeln!(out, "  redo")?;
    }
    // Calls change the redo list's front, where the next is.
    let same = end.saturating_sub(alike(redo.iter().rev().zip(old_redo.iter().rev())));
    let shown = seam.saturating_add(most).min(same);
    records((seam..shown).zip(&redo), out)?;
    passed(shown..same, LISTED, out)?;
    passed(same..end, AS_BEFORE, out)
}

fn lists(line: &EditLine) -> [Vec<Change<'_>>; 2] {
    [line.undo_list().collect(), line.redo_list().collect()]
}

/// How many records are alike up to the first that are not; none where they are few.
fn alike<'a>(pairs: impl Iterator<Item = (&'a Change<'a>, &'a Change<'a>)>) -> usize {
    let count = pairs.take_while(|(new, old)| new == old).count();
    if count > FEW {
        count
    } else {
        0
    }
}

fn records<'a>(list: impl Iterator<Item = (usize, &'a Change<'a>)>, out: &mut impl Write) -> io::Result<()> {
    for (number, change) in list {
        writeln!(out, "    {number:<3} {change}")?;
    }
    Ok(())
}

/// Records that are not shown, by their numbers.
fn passed(numbers: Range<usize>, why: &str, out: &mut impl Write) -> io::Result<()> {
    let Some(last) = numbers.clone().last() else { return Ok(()) };
    let numbers = if numbers.start == last { last.to_string() } else { format!("{}-{last}", numbers.start) };
    writeln!(out, "    {numbers:<3} {why}")
}
