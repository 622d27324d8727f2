//! Demand 3 on drawn lists of calls: undoing to the end gives back the first text, and what else it says of undo.
mod common;

use common::{line_in, text_and_log, Rng};
use std::collections::HashMap;
use tulofewa::{EditLine, Outcome, Refusal, Room};

/// The open groups, by their marks.
type Open = Vec<usize>;

/// A call of demand 3's list, with any arguments. Undo and redo come only where no group is open.
fn call(line: &mut EditLine, open: &mut Open, rng: &mut Rng) -> Result<Outcome, Refusal> {
    let (len, n) = (line.text().len(), rng.count());
    let text = rng.text();
    let range = rng.place(len)..rng.place(len);
    match rng.below(34) {
        0..=7 => line.insert(rng.character(), 1),
        8 => line.insert(rng.character(), n),
        9 => line.yank(&text, n),
        10 => line.yank_pop(range.start, &text),
        11 => line.update(&text, range.start),
        12 => line.replace(range, &text),
        13 => line.delete_range(range),
        14 => line.delete(n).map(|cut| cut.map_or(Outcome::Nothing, |_| Outcome::Done)),
        15 => line.backspace(n),
        16 => line.kill(rng.movement()),
        17 => line.delete_word(rng.at(), rng.word(), n),
        18 => line.transpose_chars(),
        19 => line.transpose_words(n),
        20 => line.edit_word(rng.action()),
        21 => line.indent(rng.movement(), rng.pick(&[0, 1, 2, 33]), rng.below(2) == 0),
        22 | 23 => line.set_pos(range.start),
        24 => line.move_to_prev_word(rng.word(), n),
        25 => line.move_to(rng.search(), n),
        26 => line.move_to_line_up(n, 0),
        27 | 28 => line.begin().map(|mark| {
            open.push(mark);
            Outcome::Done
        }),
        29 => line.end().inspect(|_| open.clear()),
        30 | 31 => {
            let mark = if open.is_empty() { rng.below(4) } else { rng.pick(open) + rng.below(2) };
            line.cancel(mark).inspect(|&outcome| open.retain(|&begun| outcome == Outcome::Nothing || begun < mark))
        }
        32 if open.is_empty() => line.undo(n),
        33 if open.is_empty() => line.redo(n),
        _ => line.move_backward(n),
    }
}

/// Closes the groups; where the log has no room for that, takes the outermost one back.
fn close(line: &mut EditLine, open: &mut Open) {
    if line.end().is_err() {
        if let Some(&mark) = open.first() {
            assert_eq!(line.cancel(mark), Ok(Outcome::Done));
        }
    }
    open.clear();
}

/// Undoes to the end, by counts that are drawn from `n`, and tells how many calls that took.
fn undo_all(line: &mut EditLine, mut n: impl FnMut() -> u16) -> u16 {
    let mut calls = 0;
    while line.undo_list().next().is_some() {
        let before = line.undo_list().count();
        line.undo(n()).unwrap();
        assert!(line.undo_list().count() < before, "{line:?}");
        calls += 1;
    }
    calls
}

fn conclusions(line: &EditLine, first: &str, rng: &mut Rng) {
    let (mut by_ones, mut by_any) = (line.clone(), line.clone());
    let units = undo_all(&mut by_ones, || 1);
    undo_all(&mut by_any, || rng.count());
    assert_eq!((by_ones.text(), by_any.text()), (first, first));

    let mut all = line.clone();
    all.undo(units).unwrap();
    assert_eq!((all.text(), all.undo_list().count()), (first, 0));

    for n in 1..=units {
        let mut round = line.clone();
        round.undo(n).unwrap();
        round.redo(n).unwrap();
        assert_eq!(text_and_log(&round), text_and_log(line));
        let (mut once, mut twice) = (line.clone(), line.clone());
        once.undo(units).unwrap();
        twice.undo(n).unwrap();
        if n < units {
            twice.undo(units - n).unwrap();
        }
        assert_eq!(format!("{twice:?}"), format!("{once:?}"));
    }
}

#[test]
fn undoing_to_the_end_gives_the_first_text() {
    let mut rng = Rng(3);
    let mut said = HashMap::new();
    for session in 0..400 {
        // small rooms often, so that 9 and 10 come up; a ring is not needed
        let sizes = [(8, 30, 20), (40, 200, 200), (400, 2_000, 4_000)];
        let (text, records, texts) = sizes[session % sizes.len()];
        let room = Room { text, records, texts, slots: 0 };
        let first: String = "é b\n  a_7".chars().take(rng.below(7)).collect();
        let mut line = line_in(room, &first, 0);
        let mut open = Open::new();
        for _ in 0..rng.below(80) {
            let result = call(&mut line, &mut open, &mut rng);
            *said.entry(result.map_or_else(Refusal::number, |outcome| outcome as u32)).or_insert(0) += 1;
        }
        close(&mut line, &mut open);
        assert_eq!(line.level(), 0);
        conclusions(&line, &first, &mut rng);
    }
    // the lists were not idle: every number that these calls can give came up, and 12 never
    let mut numbers: Vec<_> = said.keys().copied().collect();
    numbers.sort_unstable();
    assert_eq!(numbers, [0, 1, 2, 4, 5, 6, 9, 10], "{said:?}");
}
