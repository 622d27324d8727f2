//! Every call at least once. A row: text, cursor, the call, then what it answers, the text and the cursor.
mod common;

use common::{line, undo_words};
use tulofewa::{At, CharSearch, EditLine, Movement, Outcome, Refusal, Word, WordAction};

type Call = fn(&mut EditLine) -> Result<Outcome, Refusal>;

const DONE: Outcome = Outcome::Done;
const NOTHING: Outcome = Outcome::Nothing;

/// `delete`, whose places are as far apart as the text becomes shorter.
fn cut(line: &mut EditLine, n: u16) -> Result<Outcome, Refusal> {
    let before = line.text().to_owned();
    let Some(range) = line.delete(n)? else { return Ok(NOTHING) };
    assert_eq!(before.len() - line.text().len(), range.len());
    Ok(DONE)
}

const ROWS: &[(&str, usize, Call, Outcome, &str, usize)] = &[
    ("ab", 2, |l| l.update("xyz", 1), DONE, "xyz", 1),
    ("ab", 1, |l| l.insert('é', 2), DONE, "aééb", 5),
    ("ab", 1, |l| l.yank("xy", 2), DONE, "axyxyb", 5),
    ("ab", 1, |l| l.yank("", 2), NOTHING, "ab", 1),
    ("axyb", 3, |l| l.yank_pop(2, "q"), DONE, "aqb", 2),
    ("axyb", 3, |l| l.yank_pop(2, ""), NOTHING, "ab", 1),
    ("ae\u{301}b", 1, |l| cut(l, 1), DONE, "ab", 1),
    ("ab", 2, |l| cut(l, 1), NOTHING, "ab", 2),
    ("ae\u{301}b", 4, |l| l.backspace(1), DONE, "ab", 1),
    ("ab\nc", 1, |l| l.kill_line(), DONE, "a\nc", 1),
    ("ab\nc", 1, |l| l.kill_buffer(), DONE, "a", 1),
    ("ab\ncd", 4, |l| l.discard_line(), DONE, "ab\nd", 3),
    ("ab\ncd", 4, |l| l.discard_buffer(), DONE, "d", 0),
    ("ab", 1, |l| l.transpose_chars(), DONE, "ba", 2),
    ("a", 1, |l| l.transpose_chars(), NOTHING, "a", 1),
    ("one two", 7, |l| l.delete_prev_word(Word::Big, 1), DONE, "one ", 4),
    ("one two", 0, |l| l.delete_word(At::AfterEnd, Word::Emacs, 1), DONE, " two", 0),
    ("one two", 0, |l| l.delete_to(CharSearch::ForwardBefore('t'), 1), DONE, "two", 0),
    ("one two", 0, |l| l.edit_word(WordAction::Capitalize), DONE, "One two", 3),
    ("ONE two", 0, |l| l.edit_word(WordAction::Lowercase), DONE, "one two", 3),
    ("one two", 4, |l| l.transpose_words(1), DONE, "two one", 7),
    ("one two", 0, |l| l.replace(4..7, "box"), DONE, "one box", 7),
    ("one two", 0, |l| l.delete_range(3..7), DONE, "one", 3),
    ("one two", 7, |l| l.kill(Movement::BackwardChar(3)), DONE, "one ", 4),
    ("a\nb\n", 0, |l| l.indent(Movement::WholeBuffer, 2, false), DONE, "  a\n  b\n  ", 2),
    ("  a", 3, |l| l.indent(Movement::WholeLine, 4, true), DONE, "a", 1),
    ("ab", 0, |l| l.set_pos(2), DONE, "ab", 2),
    ("ab", 0, |l| l.move_forward(1), DONE, "ab", 1),
    ("ab", 2, |l| l.move_backward(1), DONE, "ab", 1),
    ("ab", 0, |l| l.move_backward(1), NOTHING, "ab", 0),
    ("ab", 2, |l| l.move_buffer_start(), DONE, "ab", 0),
    ("ab", 0, |l| l.move_buffer_end(), DONE, "ab", 2),
    ("a\nbc", 4, |l| l.move_home(), DONE, "a\nbc", 2),
    ("ab\nc", 0, |l| l.move_end(), DONE, "ab\nc", 2),
    ("a_b c", 5, |l| l.move_to_prev_word(Word::Vi, 2), DONE, "a_b c", 0),
    ("one two", 0, |l| l.move_to_next_word(At::Start, Word::Big, 1), DONE, "one two", 4),
    ("ab\ncd", 4, |l| l.move_to_line_up(1, 0), DONE, "ab\ncd", 1),
    ("ab\ncd", 1, |l| l.move_to_line_down(1, 0), DONE, "ab\ncd", 4),
    ("banana", 5, |l| l.move_to(CharSearch::Backward('b'), 1), DONE, "banana", 0),
    ("banana", 5, |l| l.move_to(CharSearch::BackwardAfter('b'), 1), DONE, "banana", 1),
    ("ab", 2, |l| l.undo(1), NOTHING, "ab", 2),
    ("ab", 2, |l| l.redo(1), NOTHING, "ab", 2),
    ("ab", 2, |l| l.cancel(0), NOTHING, "ab", 2),
    ("ab", 2, |l| l.end(), NOTHING, "ab", 2),
];

#[test]
fn rows() {
    for (i, &(text, cursor, call, wanted, left, to)) in ROWS.iter().enumerate() {
        let mut line = line(text, cursor);
        assert_eq!((call(&mut line), line.text(), line.cursor()), (Ok(wanted), left, to), "row {i}: {text:?}");
    }
}

/// The fourteen movements of kill, on the same text.
#[test]
fn movements() {
    let rows = [
        (Movement::WholeLine, "aa b\n\nd e", 5),
        (Movement::BeginningOfLine, "aa b\ncc\nd e", 5),
        (Movement::EndOfLine, "aa b\nc \nd e", 7),
        (Movement::BackwardWord(1, Word::Emacs), "aa b\ncc\nd e", 5),
        (Movement::ForwardWord(1, At::Start, Word::Big), "aa b\nc d e", 7),
        (Movement::ViCharSearch(1, CharSearch::Forward('d')), "aa b\nc  e", 7),
        (Movement::ViFirstPrint, "aa b\nc cc\nd e", 7),
        (Movement::BackwardChar(1), "aa b\nccc\nd e", 6),
        (Movement::ForwardChar(1), "aa b\nc c\nd e", 7),
        (Movement::LineUp(1), "d e", 0),
        (Movement::LineDown(1), "aa b", 4),
        (Movement::WholeBuffer, "", 0),
        (Movement::BeginningOfBuffer, "cc\nd e", 0),
        (Movement::EndOfBuffer, "aa b\nc ", 7),
    ];
    for (movement, left, cursor) in rows {
        let mut line = line("aa b\nc cc\nd e", 7);
        line.kill(movement).unwrap();
        assert_eq!((line.text(), line.cursor()), (left, cursor), "{movement:?}");
    }
}

#[test]
fn questions() -> Result<(), Refusal> {
    let text = line("e\u{301}x \n", 4);
    assert_eq!((text.next_pos(1)?, text.next_pos(0)?), (Some(5), None));
    assert_eq!(text.copy(Movement::BackwardChar(2))?, Some(0..4));
    assert_eq!((text.is_cursor_at_end()?, text.is_end_of_input()?), (false, true));
    let (mut ahead, mut at_end) = (line("ab", 0), line("ab", 2));
    assert_eq!((ahead.delete(1)?, at_end.delete(1)?), (Some(0..1), None));
    assert_eq!((at_end.is_cursor_at_end()?, at_end.is_end_of_input()?), (true, true));
    assert_eq!((ahead.is_end_of_input()?, ahead.last_insert()?), (false, None));
    Ok(())
}

#[test]
fn the_logs_own_calls() -> Result<(), Refusal> {
    let mut log = line("", 0);
    for (idx, ch) in "ab".chars().enumerate() {
        log.log_insert(idx, ch)?;
    }
    log.log_insert_str(2, "cd")?;
    log.log_delete(3, "d")?;
    log.log_replace(0, "a", "bc")?;
    log.log_replace(2, "b", "")?;
    let wanted = ["insert \"ab\" at 0", "insert \"cd\" at 2", "delete \"d\" at 3", "replace \"ab\" by \"bc\" at 0"];
    assert_eq!(undo_words(&log), wanted);
    assert_eq!((log.last_insert()?, log.text()), (Some("bc"), ""));
    log.log_truncate(2)?;
    assert_eq!(undo_words(&log), wanted[..2]);
    assert_eq!(log.undo(1), Err(Refusal::Misfit));
    Ok(())
}
