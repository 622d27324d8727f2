//! A cataloguer's session, step by step: groups, dismissed and kept, undo and redo, the ring.
mod common;

use common::{line, undo_words};
use tulofewa::{Change, EditLine, Mode, Movement, Outcome, Refusal, Room, Word, WordAction};

fn type_in(line: &mut EditLine, text: &str) {
    for ch in text.chars() {
        assert_eq!(line.insert(ch, 1), Ok(Outcome::Done));
    }
}

/// A dismissed suggestion must not count as an open group: the next undo takes the last words, not the description.
#[test]
fn a_dismissed_suggestion_leaves_no_group_open() -> Result<(), Refusal> {
    let mut line = EditLine::new(Room::default())?;
    type_in(&mut line, "Parish register, box 12");
    let written = (line.text().to_owned(), undo_words(&line));
    let mark = line.begin()?;
    line.move_buffer_start()?;
    line.replace(0..6, "Saint Mary's")?;
    line.begin()?;
    line.edit_word(WordAction::Uppercase)?;
    assert_eq!(line.level(), 2);
    assert_eq!(line.cancel(mark)?, Outcome::Done);
    assert_eq!((line.text().to_owned(), undo_words(&line)), written);
    assert_eq!(line.level(), 0);
    assert_eq!(line.redo_list().count(), 0);

    line.move_buffer_end()?;
    line.begin()?;
    type_in(&mut line, " and 13");
    assert_eq!(line.end()?, Outcome::Done);
    assert_eq!(line.undo(1)?, Outcome::Done);
    assert_eq!(line.text(), written.0);
    Ok(())
}

#[test]
fn a_group_that_is_kept_is_one_unit() -> Result<(), Refusal> {
    let mut line = line("parish box", 0);
    line.begin()?;
    line.edit_word(WordAction::Capitalize)?;
    line.yank(" of", 1)?;
    assert_eq!(line.end()?, Outcome::Done);
    assert_eq!(line.last_insert()?, Some(" of"));
    let changes: Vec<_> = line.undo_list().collect();
    let wanted = [
        Change::Begin,
        Change::Delete { at: 0, text: "parish" },
        Change::Insert { at: 0, text: "Parish" },
        Change::Insert { at: 6, text: " of" },
        Change::End,
    ];
    assert_eq!(changes, wanted);
    assert_eq!(line.undo(1)?, Outcome::Done);
    assert_eq!((line.text(), line.undo_list().count(), line.redo_list().count()), ("parish box", 0, 5));
    assert_eq!(line.redo(1)?, Outcome::Done);
    assert_eq!((line.text(), line.cursor()), ("Parish of box", 9));
    assert_eq!((line.undo(9)?, line.undo(1)?), (Outcome::Done, Outcome::Nothing));
    assert_eq!((line.redo(0)?, line.redo(9)?), (Outcome::Nothing, Outcome::Done));
    // undo 0 is undo 1
    assert_eq!((line.undo(0)?, line.text()), (Outcome::Done, "parish box"));
    Ok(())
}

#[test]
fn groups_without_a_change_are_dropped() -> Result<(), Refusal> {
    let mut line = line("a", 1);
    let (outer, inner) = (line.begin()?, line.begin()?);
    assert_eq!((outer, inner), (0, 1));
    assert_eq!(line.end()?, Outcome::Nothing);
    assert_eq!((line.undo_list().count(), line.level()), (0, 0));
    assert_eq!(line.cancel(outer)?, Outcome::Nothing);
    Ok(())
}

#[test]
fn records_in_words() -> Result<(), Refusal> {
    let mut line = line("é\n\"b\"", 0);
    line.begin()?;
    line.delete(1)?;
    line.replace(1..4, "ß")?;
    line.end()?;
    assert_eq!(undo_words(&line), ["begin", "delete \"é\" at 0", r#"replace "\"b\"" by "ß" at 1"#, "end"]);
    Ok(())
}

#[test]
fn kills_share_a_slot_until_a_reset() -> Result<(), Refusal> {
    let mut line = line("one two three", 13);
    for word in ["three", "two "] {
        line.kill(Movement::BackwardWord(1, Word::Emacs))?;
        line.ring_mut().kill(word, Mode::Prepend)?;
    }
    assert_eq!(line.text(), "one ");
    line.ring_mut().reset()?;
    line.ring_mut().kill("four", Mode::Append)?;
    assert_eq!(line.ring().texts().collect::<Vec<_>>(), ["two three", "four"]);
    assert_eq!(line.yank_killed(1)?, Outcome::Done);
    assert_eq!(line.text(), "one four");
    assert_eq!(line.yank_pop_killed()?, Outcome::Done);
    assert_eq!((line.text(), line.cursor()), ("one two three", 13));
    line.ring_mut().reset()?;
    assert_eq!(line.yank_pop_killed()?, Outcome::Nothing);
    Ok(())
}

#[test]
fn a_ring_of_size_0_keeps_nothing() -> Result<(), Refusal> {
    let mut line = EditLine::new(Room { slots: 0, ..Room::default() })?;
    assert_eq!(line.ring_mut().kill("a", Mode::Append)?, Outcome::Done);
    assert_eq!((line.ring().size(), line.ring().texts().count()), (0, 0));
    assert_eq!(line.yank_killed(1)?, Outcome::Nothing);
    Ok(())
}

#[test]
fn another_line_has_an_empty_log_and_the_same_ring() -> Result<(), Refusal> {
    let mut line = line("one", 3);
    line.insert('!', 1)?;
    line.ring_mut().kill("kept", Mode::Append)?;
    line.start("two", 1)?;
    assert_eq!((line.text(), line.cursor(), line.undo_list().count()), ("two", 1, 0));
    assert_eq!(line.ring_mut().yank()?, Some("kept"));
    Ok(())
}

/// By the names that rustyline's LineBuffer has, and as a text.
#[test]
fn the_text_by_other_names() -> Result<(), Refusal> {
    let mut line = EditLine::default();
    assert_eq!((line.room(), line.ring().size(), line.is_empty(), line.len()), (Room::default(), 16, true, 0));
    line.yank("é, box", 1)?;
    line.set_pos(2)?;
    assert_eq!((line.as_str(), line.as_ref(), line.text()), ("é, box", "é, box", "é, box"));
    assert_eq!((line.pos(), line.cursor(), line.len(), line.is_empty()), (2, 2, 7, false));
    assert_eq!((line.to_string(), format!("{line:>8}|{line:.1}")), ("é, box".to_owned(), "  é, box|é".to_owned()));
    assert_eq!(line.into_string(), "é, box");
    Ok(())
}
