//! Document 01's cases.
mod common;

use common::{line, undo_words};
use tulofewa::{
    Action, At, CharSearch, EditLine, KillRing, Mode, Movement, Outcome, Place, Refusal, Word, WordAction, TEXT_MAX,
};

/// What a motion answers, and the cursor afterwards.
#[track_caller]
fn moves(
    text: &str,
    cursor: usize,
    motion: impl FnOnce(&mut EditLine) -> Result<Outcome, Refusal>,
    wanted: Result<Outcome, Refusal>,
    to: usize,
) {
    let mut line = line(text, cursor);
    assert_eq!((motion(&mut line), line.cursor(), line.text()), (wanted, to, text));
}

const DONE: Result<Outcome, Refusal> = Ok(Outcome::Done);
const NOTHING: Result<Outcome, Refusal> = Ok(Outcome::Nothing);

#[test]
fn p1_a_mark_joins_its_letter() {
    moves("e\u{301}x", 0, |line| line.move_forward(1), DONE, 3);
    moves("e\u{301}x", 0, |line| line.move_forward(5), DONE, 4);
}

#[test]
fn p2_a_line_end_of_two_characters() {
    moves("a\r\nb", 1, |line| line.move_forward(1), DONE, 3);
    moves("a\r\nb", 2, |line| line.move_forward(1), DONE, 3);
    moves("a\r\nb", 1, |line| line.move_forward(0), NOTHING, 1);
}

#[test]
fn p3_words_back() {
    moves("parish box", 10, |line| line.move_to_prev_word(Word::Emacs, 1), DONE, 7);
    moves("parish box", 7, |line| line.move_to_prev_word(Word::Emacs, 1), DONE, 0);
}

#[test]
fn p4_and_p5_words_forward() {
    moves("parish box", 0, |line| line.move_to_next_word(At::Start, Word::Emacs, 1), DONE, 7);
    moves("parish box", 0, |line| line.move_to_next_word(At::AfterEnd, Word::Emacs, 1), DONE, 6);
    moves("parish box", 0, |line| line.move_to_next_word(At::BeforeEnd, Word::Vi, 1), DONE, 5);
    moves("parish box", 0, |line| line.move_to_next_word(At::AfterEnd, Word::Emacs, 0), DONE, 10);
    moves("parish box", 0, |line| line.move_to_next_word(At::Start, Word::Vi, 0), NOTHING, 0);
}

#[test]
fn p6_a_search() {
    for (n, wanted, to) in [(2, DONE, 5), (9, DONE, 5), (0, NOTHING, 1)] {
        moves("banana", 1, |line| line.move_to(CharSearch::Forward('a'), n), wanted, to);
    }
}

#[test]
fn p7_copy_of_lines() {
    assert_eq!(line("a\nb\nc", 2).copy(Movement::LineDown(1)), Ok(Some(1..5)));
}

#[test]
fn p8_a_line_that_is_too_short() {
    moves("ab\nc\nlong", 9, |line| line.move_to_line_up(2, 0), DONE, 4);
}

#[test]
fn p9_and_p10_rewrites() {
    let mut street = line("straße", 0);
    assert_eq!(street.edit_word(WordAction::Uppercase), DONE);
    assert_eq!((street.text(), street.cursor()), ("STRASSE", 7));
    let mut words = line("box parish", 10);
    assert_eq!(words.transpose_words(1), DONE);
    assert_eq!((words.text(), words.cursor()), ("parish box", 10));
}

#[test]
fn p11_typing_makes_records() {
    let mut line = line("", 0);
    for ch in "ab c".chars() {
        assert_eq!(line.insert(ch, 1), DONE);
    }
    assert_eq!(undo_words(&line), ["insert \"ab\" at 0", "insert \" c\" at 2"]);
    assert_eq!(line.undo(1), DONE);
    assert_eq!(line.text(), "ab");
}

/// What stands after q, a group that is dismissed, a group with r, and undo.
fn p12(dismiss: impl FnOnce(&mut EditLine, usize) -> Result<Outcome, Refusal>) -> String {
    let mut line = line("", 0);
    assert_eq!(line.insert('q', 1), DONE);
    let mark = line.begin().unwrap();
    assert_eq!(dismiss(&mut line, mark), DONE);
    line.begin().unwrap();
    assert_eq!(line.insert('r', 1), DONE);
    assert_eq!(line.end(), DONE);
    assert_eq!(line.undo(1), DONE);
    line.text().to_owned()
}

#[test]
fn p12_a_dismissed_group() {
    assert_eq!(p12(EditLine::log_truncate), "");
    assert_eq!(p12(EditLine::cancel), "q");
}

#[test]
fn p13_the_ring_goes_round() {
    let mut ring = KillRing::new(2).unwrap();
    for text in ["a", "b", "c"] {
        assert_eq!(ring.kill(text, Mode::Append), DONE);
        assert_eq!(ring.reset(), DONE);
    }
    assert_eq!((ring.index(), ring.last_action()), (0, Action::Other));
    assert_eq!(ring.yank(), Ok(Some("c")));
    assert_eq!((ring.index(), ring.last_action()), (0, Action::Yank(1)));
    assert_eq!(ring.yank_pop(), Ok(Some((1, "b"))));
    assert_eq!((ring.index(), ring.last_action()), (1, Action::Yank(1)));
    assert_eq!(ring.yank_pop(), Ok(Some((1, "c"))));
    assert_eq!(ring.kill("d", Mode::Append), DONE);
    assert_eq!((ring.index(), ring.last_action()), (1, Action::Kill));
}

#[test]
fn a_full_text_takes_no_more() {
    let full = "a".repeat(TEXT_MAX);
    assert_eq!(line(&full, TEXT_MAX).insert('a', 1), Err(Refusal::Full));
    let mut nearly = line(&full[1..], TEXT_MAX - 1);
    assert_eq!(nearly.insert('a', 1), DONE);
    assert_eq!(nearly.text(), full);
    assert_eq!(nearly.insert('a', 1), Err(Refusal::Full));
}

#[test]
fn the_other_cases() {
    assert_eq!(line("\u{A0}a", 0).indent(Movement::WholeLine, 1, true), Err(Refusal::Split));
    let after = Refusal::Place(Place::StartAfterEnd { start: 3, end: 1 });
    assert_eq!(line("   abc", 1).copy(Movement::ViFirstPrint), Err(after));
    moves("a\nb", 3, |line| line.move_to_line_up(1, 1_024), DONE, 0);
    moves("a\nb", 3, |line| line.move_to_line_up(1, 1_025), Err(Refusal::Prompt), 3);
    moves("a\nb", 0, |line| line.move_to_line_down(1, 1_024), DONE, 3);
    moves("a\nb", 0, |line| line.move_to_line_down(1, 1_025), Err(Refusal::Prompt), 0);
}
