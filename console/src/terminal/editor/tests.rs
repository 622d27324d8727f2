use super::*;
use tulofewa::Keys;

/// What comes of some bytes, typed from the beginning on.
fn typed(bytes: &[u8]) -> (Editor, Vec<Step>) {
    let mut editor = Editor::new().unwrap();
    let steps = more(&mut editor, bytes);
    (editor, steps)
}

/// The steps of some more bytes, but those that stay.
fn more(editor: &mut Editor, bytes: &[u8]) -> Vec<Step> {
    let steps = Keys::new().feed(bytes).into_iter().map(|input| editor.take(input));
    steps.filter(|step| *step != Step::Stay).collect()
}

#[track_caller]
fn is(editor: &Editor, text: &str, cursor: usize, status: &str) {
    assert_eq!((editor.line().text(), editor.line().cursor(), editor.status()), (text, cursor, status));
}

fn pasted(text: &[u8]) -> Vec<u8> {
    [b"\x1b[200~", text, b"\x1b[201~"].concat()
}

#[test]
fn a_line_is_finished_and_another_begins() {
    let (editor, steps) = typed(b"box 12\r");
    assert_eq!(steps, [Step::Finished("box 12".to_owned())]);
    assert_eq!((editor.line().text(), editor.line().undo_list().count()), ("", 0));
    assert_eq!(typed(b"\r").1, [Step::Finished(String::new())]);
}

#[test]
fn the_ring_stays_from_line_to_line() {
    assert_eq!(typed(b"box\x15\r\x19\r").1, [Step::Finished(String::new()), Step::Finished("box".to_owned())]);
}

#[test]
fn ways_out() {
    assert_eq!(typed(b"\x04").1, [Step::Leave]);
    assert_eq!(typed(b"\x03").1, [Step::Leave]);
    assert_eq!(typed(b"a\x03\x03").1, [Step::Leave]);
    // a key between them, and on a line with text C-d cuts
    let (editor, steps) = typed(b"ab\x03\x01\x03\x04");
    assert_eq!(steps, []);
    is(&editor, "b", 0, "0 done: places 0 to 1, \"a\"");
    assert_eq!(typed(b"\x0c\x1a\x18h").1, [Step::Redraw, Step::Suspend, Step::List]);
}

#[test]
fn counts() {
    is(&typed(b"abcdef\x1b3\x1b[D").0, "abcdef", 3, "0 done");
    is(&typed(b"abcdef\x1b2\x7f").0, "abcd", 4, "0 done");
    is(&typed(b"a b c d\x1f\x1f\x1b2\x18r").0, "a b c d", 7, "0 done");
    is(&typed(b"\x1b3\x1b\r").0, "\n\n\n", 3, "0 done");
}

#[test]
fn what_is_no_key_rings_the_bell_once() {
    let (mut editor, _) = typed(b"a\x18z");
    is(&editor, "a", 1, "13 unbound: the bytes are no key");
    assert!(editor.bell() && !editor.bell());
    // C-g with nothing to be dismissed
    assert!(typed(b"\x07").0.bell());
    assert!(!typed(b"a\x1f\x1f").0.bell());
}

#[test]
fn a_suggestion_dismissed_is_as_if_it_had_never_been() {
    let (mut editor, _) = typed(b"Ely, box 12");
    let before = editor.line().undo_list().count();
    more(&mut editor, b"\x18s");
    is(&editor, "Ely, Saint Mary, box 12", 15, "0 done; Enter keeps it, C-g dismisses it");
    assert_eq!(editor.line().level(), 1);
    more(&mut editor, b"\x07");
    assert_eq!((editor.line().level(), editor.line().undo_list().count()), (0, before));
    is(&editor, "Ely, box 12", 3, "0 done");
}

#[test]
fn a_suggestion_is_kept_by_enter_and_by_other_keys() {
    for key in [&b"\r"[..], b"\x05", b"\x1b[D", b"\x18s\x07", b"\x1b\x7f\x1f"] {
        let (mut editor, _) = typed(b"Ely\x18s");
        assert_eq!(more(&mut editor, key), []);
        assert_eq!((editor.line().level(), editor.line().text()), (0, "Ely, Saint Mary"), "{key:?}");
        more(&mut editor, b"\x1f");
        assert_eq!(editor.line().text(), "Ely", "{key:?}");
    }
    // what shows something keeps nothing
    for key in [&b"\x18p"[..], b"\x18h", b"\x0c", b"\x03"] {
        let (mut editor, _) = typed(b"Ely\x18s");
        more(&mut editor, key);
        assert_eq!(editor.line().level(), 1, "{key:?}");
    }
}

#[test]
fn nothing_to_suggest() {
    is(&typed(b"\x18s").0, "", 0, "1 nothing");
    is(&typed(b", a\x18s").0, ", a", 3, "1 nothing");
}

/// Typed letters join neither end of a paste.
#[test]
fn a_paste_is_one_group() {
    let (mut editor, _) = typed(&[b"a".as_slice(), &pasted(b"b\r\nc\rd\ne"), b"f"].concat());
    is(&editor, "ab\nc\nd\nef", 9, "0 done");
    for text in ["ab\nc\nd\ne", "a", ""] {
        more(&mut editor, b"\x1f");
        assert_eq!(editor.line().text(), text);
    }
}

/// A paste takes the place of the second byte that a key waits for.
#[test]
fn a_paste_behind_half_a_key() {
    is(&typed(&[b"\x18".as_slice(), &pasted(b"a"), b"s"].concat()).0, "as", 2, "0 done");
}

#[test]
fn a_paste_that_is_refused_changes_nothing() {
    let long = "x".repeat(4_090);
    let cases: [(&[u8], &str); 5] = [
        ("12 \u{4e2d}".as_bytes(), "4 foreign: U+4E2D '\u{4e2d}' at place 3 is outside the catalogue's repertoire"),
        (b"1\xff", "4 foreign: 0xFF at place 1 is not UTF-8"),
        (long.as_bytes(), "9 full: the text would be longer than its buffer"),
        (&[b'x'; 4_097], "2 sizes: the text has 4,097 bytes, the line takes 4,096"),
        (b"", "1 nothing"),
    ];
    for (text, status) in cases {
        let (mut editor, _) = typed(b"Ely, box 12\x1f");
        let state = |editor: &Editor| format!("{:?}", editor.line());
        let before = state(&editor);
        more(&mut editor, &pasted(text));
        assert_eq!((state(&editor), editor.status()), (before, status));
    }
}

#[test]
fn keys_of_the_terminals_reset_the_ring() {
    // two kills in a row share a slot, with a movement between them they do not
    assert_eq!(typed(b"a b\x1b\x7f\x1b\x7f").0.line().ring().texts().collect::<Vec<_>>(), ["a b"]);
    assert_eq!(typed(b"a b\x1b\x7f\x1b[D\x1b\x7f").0.line().ring().texts().collect::<Vec<_>>(), ["b", "a"]);
}
