//! The panel: the undo list by its units, the redo list, the ring and the level.
use crate::show::quoted;
use tulofewa::{Change, EditLine};

/// The panel's rows. The next to be undone and the next to be redone stand first; the number before a unit is the count
/// that undoes it.
pub fn panel(line: &EditLine) -> Vec<String> {
    let undo: Vec<_> = line.undo_list().collect();
    let units = units(&undo);
    let count = units.iter().filter(|begins| **begins).count();
    let mut rows = vec![format!("undo: {count} units, level {}", line.level())];
    let mut number: usize = 0;
    for (change, begins) in undo.iter().rev().zip(units) {
        number = number.saturating_add(usize::from(begins));
        let label = if begins { number.to_string() } else { String::new() };
        rows.push(format!("{label:>4} {change}"));
    }
    rows.push("redo".to_owned());
    rows.extend(line.redo_list().map(|change| format!("     {change}")));
    rows.push(format!("ring: {} of {}", line.ring().texts().count(), line.ring().size()));
    for (slot, text) in line.ring().texts().enumerate() {
        let star = if slot == line.ring().index() { '*' } else { ' ' };
        rows.push(format!("   {star} {}", quoted(text)));
    }
    rows
}

/// For each record, the newest first: does it begin a unit? A unit is a record, an open group's Begin too, or a closed
/// group, whose End comes first here.
fn units(undo: &[Change<'_>]) -> Vec<bool> {
    let mut depth: usize = 0;
    let begins = |change: &Change<'_>| {
        let outside = depth == 0;
        match change {
            Change::End => depth = depth.saturating_add(1),
            Change::Begin => depth = depth.saturating_sub(1),
            _ => {}
        }
        outside
    };
    undo.iter().rev().map(begins).collect()
}

#[cfg(test)]
mod tests {
    use super::*;

    /// The units are as many as the calls that empty the list, and each call takes one of them.
    #[test]
    fn units_are_what_undo_takes() {
        let mut line = EditLine::new(Default::default()).unwrap();
        line.yank("a", 1).unwrap();
        line.begin().unwrap();
        line.begin().unwrap();
        line.yank("b", 1).unwrap();
        line.end().unwrap();
        line.yank(" c", 1).unwrap();
        line.begin().unwrap();
        line.yank(" d", 1).unwrap();
        line.yank(" e", 1).unwrap();
        let count =
            |line: &EditLine| units(&line.undo_list().collect::<Vec<_>>()).into_iter().filter(|unit| *unit).count();
        // " e", " d", the open Begin, " c", the two groups, "a"
        for left in (0..6).rev() {
            assert_eq!(count(&line), left + 1);
            line.undo(1).unwrap();
            assert_eq!(count(&line), left);
        }
        assert_eq!((line.text(), line.undo_list().count()), ("", 0));
    }
}
