//! Lines and what they become.
use super::{command, is_idle};
use crate::commands::all;
use crate::mistakes::Mistake;
use crate::params::Args;
use tulofewa::{At, CharSearch, Movement, Word};

fn args(line: &str) -> Args {
    command(line).unwrap_or_else(|mistake| panic!("{line}: {mistake}")).1
}

fn movement(line: &str) -> Movement {
    args(line).movement()
}

#[test]
fn idle_lines() {
    for line in ["", " \t", "#", "  # insert a", "#insert"] {
        assert!(is_idle(line), "{line}");
    }
    assert!(!is_idle("insert #"));
}

#[test]
fn numbers() {
    assert_eq!((args("undo").n, args("undo 0").n, args("undo 65535").n, args("\tundo \t 007 ").n), (1, 0, 65_535, 7));
    assert_eq!(args("set_pos 65536").pos, 65_536);
    assert_eq!(args(&format!("cancel {}", usize::MAX)).mark, usize::MAX);
    assert_eq!((args("move_to_line_up").prompt, args("move_to_line_up 2 1024").prompt), (0, 1024));
    assert_eq!((args("replace 1 2 x").start, args("replace 1 2 x").end), (1, 2));
    assert_eq!((args("room").sizes, args("room 1 2 3 4").sizes), (vec![], vec![1, 2, 3, 4]));
}

#[test]
fn texts_and_characters() {
    for (line, text) in [
        ("yank a b", "a b"),
        ("yank   a  b \t", "a  b"),
        ("yank \"a \" 2", "a "),
        ("yank 2 # 3", "2 # 3"),
        ("yank a\"b", "a\"b"),
        (r"yank a\n", r"a\n"),
        (r#"yank "a\n""#, "a\n"),
        ("yank \"\"", ""),
        ("start", ""),
        ("log_replace 0 \"a b\" c d", "c d"),
    ] {
        assert_eq!(args(line).text, text, "{line}");
    }
    assert_eq!((args("yank \"a\" 2").n, args("log_replace 0 \"a b\" c").old.as_str()), (2, "a b"));
    for (line, ch) in [("insert 3", '3'), ("insert é 2", 'é'), ("insert \" \"", ' '), ("insert \"\\\"\"", '"')] {
        assert_eq!(args(line).ch, ch, "{line}");
    }
    assert_eq!((args("start abc").cursor_in_text(), args("start \"abc\" 1").cursor_in_text()), (3, 1));
}

#[test]
fn what_may_be_left_out_comes_in_any_order() {
    for line in ["word_forward 2 start vi", "word_forward vi 2 start", "word_forward start vi 2"] {
        let args = args(line);
        assert_eq!((args.n, args.at, args.word), (2, At::Start, Word::Vi), "{line}");
    }
    let found = |line| (args(line).char_search(), args(line).n);
    assert_eq!(found("move_to a"), (CharSearch::Forward('a'), 1));
    assert_eq!(found("move_to 2 3"), (CharSearch::Forward('2'), 3));
    assert_eq!(found("move_to a 2 backward"), (CharSearch::Backward('a'), 2));
    assert_eq!(found("move_to forward_before a"), (CharSearch::ForwardBefore('a'), 1));
}

#[test]
fn movements_behind_a_call() {
    assert_eq!(movement("kill word_back"), Movement::BackwardWord(1, Word::Emacs));
    assert_eq!(movement("copy word_forward big 3"), Movement::ForwardWord(3, At::AfterEnd, Word::Big));
    assert_eq!(movement("copy search backward_after x 2"), Movement::ViCharSearch(2, CharSearch::BackwardAfter('x')));
    let indent = args("indent line_down 2 4 dedent");
    assert_eq!((indent.movement(), indent.amount, indent.dedent), (Movement::LineDown(2), 4, true));
    let indent = args("indent whole_line 4");
    assert_eq!((indent.movement(), indent.amount, indent.dedent), (Movement::WholeLine, 4, false));
}

#[test]
fn messages() {
    for (line, wanted) in [
        ("inser a", "no command inser; is it insert?"),
        ("del", "no command del; is it delete, delete_prev_word or delete_word?"),
        ("xyzzy", "no command xyzzy; help lists them"),
        ("\"undo\"", "no command \"undo\"; is it undo?"),
        ("a\u{7}", "no command a\\u{7}; help lists them"),
        ("help inser", "no command inser; is it insert?"),
        (&"é".repeat(41), &format!("no command {}...; help lists them", "é".repeat(40))),
        ("kill undo", "no movement undo; help lists them"),
        ("copy line_dwon", "no movement line_dwon; is it line_down?"),
        ("whole_line", "whole_line does not move the cursor: it goes behind copy, kill, kill_to_ring or indent"),
        ("cancel", "cancel: mark is missing (a number); usage: cancel mark"),
        ("copy", "copy: movement is missing (a movement with its arguments); usage: copy movement"),
        (
            "indent line_up 4",
            "indent: amount is missing (a number from 0 to 255); usage: indent movement amount [dedent]",
        ),
        ("edit_word", "edit_word: action is missing (capitalize, lowercase or uppercase); usage: edit_word action"),
        (
            "log_replace 0 a b",
            "log_replace: new is missing (a text in quotes, or the rest of the line); usage: log_replace idx old new",
        ),
        ("undo 1 2", "undo: 2 is too much; usage: undo [n]"),
        ("end x", "end: x is too much; usage: end"),
        ("kill line_start 2", "kill: 2 is too much; usage: kill movement"),
        ("undo x", "undo: x does not fit: n is a number from 0 to 65,535"),
        ("undo -1", "undo: -1 does not fit: n is a number from 0 to 65,535"),
        ("undo \"1\"", "undo: \"1\" does not fit: n is a number from 0 to 65,535"),
        ("word_back emcs", "word_back: emcs does not fit: n is a number from 0 to 65,535; word is big, emacs or vi"),
        ("insert ab", "insert: ab does not fit: ch is one character, as it is or in quotes"),
        ("insert \"\"", "insert: \"\" does not fit: ch is one character, as it is or in quotes"),
        ("undo 65536", "undo: n is at most 65,535, not 65536"),
        ("indent back 1 256", "indent: amount is at most 255, not 256"),
        (
            "set_pos 99999999999999999999",
            "set_pos: pos is at most 18,446,744,073,709,551,615, not 99999999999999999999",
        ),
        ("key ESC up", "up is no word of a key; those are ESC, C-x, SP, TAB, LF, CR, digits, a character, or x: with bytes as in x:C3A9"),
        (
            "key",
            "key: key is missing (words to the end of the line: ESC, C-x, SP, TAB, LF, CR, digits, a character, or x: with bytes as in x:C3A9); usage: key key",
        ),
        ("key \"a\" b", "key: b is too much; usage: key key"),
        ("yank \"a", "a quote is not closed"),
        ("yank \"a\"b", "a blank is missing between a closing quote and b"),
        ("yank \"\\x\"", "\\x is no escape; those are \\n, \\t, \\r, \\\", \\\\ and \\u{e9}"),
    ] {
        assert_eq!(command(line).err().map(|mistake| mistake.to_string()).as_deref(), Some(wanted), "{line}");
    }
}

/// Without an argument a command is done where none must be given, and else says which is missing.
#[test]
fn every_command_alone() {
    for each in all() {
        let missing = each.takes.iter().find(|param| param.left_out.is_none());
        match (command(each.name), missing) {
            (Ok(_), None) => {}
            (Err(Mistake::Missing(_, param)), Some(missing)) => assert_eq!(param.word, missing.word),
            (Err(Mistake::NotAlone(_)), None) => assert!(each.movement().is_some()),
            (other, _) => panic!("{}: {:?}", each.name, other.err()),
        }
    }
}
