//! Keys on a line with its ring: what each does, what follows from key to key, and refusals.
mod common;

use common::{line, line_in, text_and_log, undo_words, Rng};
use tulofewa::{Action, EditLine, Foreign, Mode, Outcome, Place, Pressed, Refusal, Room, Size};

const DONE: Outcome = Outcome::Done;
const NOTHING: Outcome = Outcome::Nothing;

/// A line whose ring has killed "two words".
fn with_killed(text: &str, cursor: usize) -> EditLine {
    let mut line = line(text, cursor);
    line.ring_mut().kill("two words", Mode::Append).unwrap();
    line
}

/// Text, cursor, the key, then what it answers, the text, the cursor and the ring's last action.
type Row = (&'static str, usize, &'static [u8], Outcome, &'static str, usize, Action);

/// Each key once.
const ROWS: &[Row] = &[
    ("ab", 1, b"x", DONE, "axb", 2, Action::Other),
    ("ab", 1, "é".as_bytes(), DONE, "aéb", 3, Action::Other),
    ("ab", 1, b"\t", DONE, "a\tb", 2, Action::Other),
    ("ab", 1, b"\x1b3x", DONE, "axxxb", 4, Action::Other),
    ("a\nbc", 4, b"\x01", DONE, "a\nbc", 2, Action::Other),
    ("ab\nc", 0, b"\x05", DONE, "ab\nc", 2, Action::Other),
    ("ab", 2, b"\x1b2\x02", DONE, "ab", 0, Action::Other),
    ("ab", 2, b"\x06", NOTHING, "ab", 2, Action::Other),
    ("one two", 7, b"\x1bb", DONE, "one two", 4, Action::Other),
    ("one two", 0, b"\x1b2\x1bf", DONE, "one two", 7, Action::Other),
    ("ab", 1, b"\x14", DONE, "ba", 2, Action::Other),
    ("one two", 4, b"\x1bt", DONE, "two one", 7, Action::Other),
    ("oNE", 0, b"\x1bc", DONE, "One", 3, Action::Other),
    ("ONE", 0, b"\x1bl", DONE, "one", 3, Action::Other),
    ("one", 0, b"\x1bu", DONE, "ONE", 3, Action::Other),
    ("ab", 2, b"\x1f", NOTHING, "ab", 2, Action::Other),
    ("ab\nc", 1, b"\x0b", DONE, "a\nc", 1, Action::Kill),
    ("ab\ncd", 4, b"\x15", DONE, "ab\nd", 3, Action::Kill),
    ("a-b c-d", 7, b"\x17", DONE, "a-b ", 4, Action::Kill),
    ("one two", 0, b"\x1bd", DONE, " two", 0, Action::Kill),
    ("ab", 1, b"\x19", DONE, "atwo wordsb", 10, Action::Yank(9)),
    ("ab", 1, b"\x1by", NOTHING, "ab", 1, Action::Kill),
];

#[test]
fn rows() {
    for &(text, cursor, key, outcome, left, to, action) in ROWS {
        let mut line = with_killed(text, cursor);
        let pressed = line.key(key);
        assert_eq!(pressed, Ok(Pressed { outcome, cut: None }), "{text:?} {key:?}");
        assert_eq!((line.text(), line.cursor(), line.ring().last_action()), (left, to, action), "{text:?} {key:?}");
    }
}

#[test]
fn control_d_answers_what_it_cut() {
    let mut line = line("ae\u{301}b", 1);
    assert_eq!(line.key(b"\x04"), Ok(Pressed { outcome: DONE, cut: Some(1..4) }));
    assert_eq!(line.text(), "ab");
    assert_eq!(line.key(b"\x1b9\x04"), Ok(Pressed { outcome: DONE, cut: Some(1..2) }));
    assert_eq!(line.key(b"\x04"), Ok(Pressed { outcome: NOTHING, cut: None }));
    assert_eq!(line.ring().texts().count(), 0);
}

fn press(line: &mut EditLine, keys: &[&str]) {
    for key in keys {
        line.key(key.as_bytes()).unwrap();
    }
}

fn killed(line: &EditLine) -> Vec<&str> {
    line.ring().texts().collect()
}

/// Kills in a row are one text, forward ones behind, backward ones in front; a kill of nothing does not part them, every
/// other key does.
#[test]
fn kills_go_to_the_ring() {
    let mut words = line("one two three", 7);
    press(&mut words, &["\x1bd", "\x0b", "\x17"]);
    assert_eq!((words.text(), killed(&words)), ("one ", vec!["two three"]));
    press(&mut words, &["\x06", "\x15"]);
    assert_eq!((words.text(), killed(&words)), ("", vec!["two three", "one "]));
}

#[test]
fn yanks_take_each_others_place() {
    let mut line = line("a b ", 4);
    press(&mut line, &["\x17", "\x02", "\x06", "\x17"]);
    assert_eq!((line.text(), killed(&line)), ("", vec!["b ", "a "]));
    press(&mut line, &["\x1b2\x19"]);
    assert_eq!(line.text(), "a a ");
    press(&mut line, &["\x1by"]);
    assert_eq!((line.text(), line.ring().last_action()), ("a b ", Action::Yank(2)));
    press(&mut line, &["x", "\x1by"]);
    assert_eq!((line.text(), line.ring().last_action()), ("a b x", Action::Other));
}

#[test]
fn typing_and_control_underscore() {
    let mut line = line("", 0);
    press(&mut line, &["a", "b", " ", "c"]);
    assert_eq!(undo_words(&line), ["insert \"ab\" at 0", "insert \" c\" at 2"]);
    press(&mut line, &["\x1f"]);
    assert_eq!(line.text(), "ab");
    press(&mut line, &["\x1f"]);
    assert_eq!((line.text(), line.redo_list().count()), ("", 2));
}

/// A refused key leaves line and ring as they were.
#[test]
fn refusals() {
    let full = "x".repeat(4_095);
    let unbound: [&[u8]; 9] = [b"", b"\x1b", b"\x1b12", b"\x07", b"\x7f", b"\x1bB", b"xy", b"\x1b1\x1b2\x06", b"\r\n"];
    let foreign: [(&[u8], Foreign); 8] = [
        (b"\xff", Foreign::Byte { byte: 0xFF, at: 0 }),
        (b"\xc3", Foreign::Byte { byte: 0xC3, at: 0 }),
        (b"\xc3\x1b\xa9", Foreign::Byte { byte: 0xC3, at: 0 }),
        ("é\u{301}\u{20AC}\u{FF}".as_bytes(), Foreign::Char { ch: '\u{20AC}', at: 4 }),
        (b"a\x1b\xe2\x82\xff", Foreign::Byte { byte: 0xE2, at: 2 }),
        ("µ\u{4E2D}".as_bytes(), Foreign::Char { ch: 'µ', at: 0 }),
        (b"\x1b\xc2\x80", Foreign::Char { ch: '\u{80}', at: 1 }),
        (b"\x00\x7f\xc2\xad\xff", Foreign::Char { ch: '\u{AD}', at: 2 }),
    ];
    let rows = unbound.map(|key| (key, Refusal::Unbound)).into_iter();
    let rows = rows.chain(foreign.map(|(key, what)| (key, Refusal::Foreign(what))));
    for (key, wanted) in rows.chain([(&b"\x0b"[..], Refusal::RingFull)]) {
        let mut line = line("ab", 0);
        line.ring_mut().kill(&full, Mode::Append).unwrap();
        let before = format!("{line:?}");
        assert_eq!(line.key(key), Err(wanted), "{key:?}");
        assert_eq!(format!("{line:?}"), before, "{key:?}");
    }
    let mut small = line_in(Room { text: 2, records: 5, texts: 9, slots: 1 }, "ab", 1);
    assert_eq!(small.key(b"c"), Err(Refusal::Full));
    assert_eq!(small.key(b"\x14"), Err(Refusal::LogFull));
    assert_eq!(small.key(b"\x0b").map(|pressed| pressed.outcome), Ok(DONE));
    assert_eq!(killed(&small), ["b"]);
}

/// What a yank takes from the ring can be too long for the line, and what it is put in for to be longer than what stands
/// before the cursor, or to start inside a character.
#[test]
fn refused_yanks() {
    let mut small = line_in(Room { text: 3, ..Room::default() }, "é", 2);
    for text in ["1234", "é", "567"] {
        small.ring_mut().kill(text, Mode::Append).unwrap();
        small.ring_mut().reset().unwrap();
    }
    let too_long = Refusal::Sizes(Size::Given { len: 4, room: 3 });
    assert_eq!(small.key(b"\x19"), Err(Refusal::Full));
    assert_eq!(small.ring_mut().yank(), Ok(Some("567")));
    let before = format!("{small:?}");
    assert_eq!(small.key(b"\x1by"), Err(Refusal::Place(Place::YankSize { size: 3, cursor: 2 })));
    assert_eq!(format!("{small:?}"), before);
    assert_eq!(small.ring_mut().yank_pop(), Ok(Some((3, "é"))));
    assert_eq!(small.key(b"\x1by"), Err(too_long));
    assert_eq!(small.ring_mut().yank_pop(), Ok(Some((2, "1234"))));
    let before = format!("{small:?}");
    assert_eq!(small.key(b"\x1b9\x19"), Err(too_long));
    assert_eq!(small.key(b"\x1by"), Err(Refusal::Place(Place::YankSize { size: 4, cursor: 2 })));
    assert_eq!(format!("{small:?}"), before);
    let mut split = line("aé", 3);
    split.ring_mut().kill("2", Mode::Append).unwrap();
    assert_eq!(split.ring_mut().yank(), Ok(Some("2")));
    assert_eq!(split.key(b"\x1by"), Err(Refusal::Split));
}

/// A stopped control underscore leaves the text that it has reached, and the ring's last action.
#[test]
fn a_stop() {
    let mut line = with_killed("ab", 2);
    line.log_insert_str(9, "z").unwrap();
    line.log_insert_str(1, "b").unwrap();
    assert_eq!(line.key(b"\x1b2\x1f"), Err(Refusal::Misfit));
    assert_eq!((line.text(), line.undo_list().count(), line.redo_list().count()), ("a", 1, 1));
    assert_eq!(line.ring().last_action(), Action::Kill);
}

/// Any keys, on any line: what is refused changes nothing, and undoing to the end by keys gives the first text.
#[test]
fn any_keys_can_be_undone() {
    const KEYS: [&[u8]; 16] = [
        b"\x01", b"\x05", b"\x02", b"\x1bf", b"\x04", b"\x14", b"\x1bt", b"\x1bc", b"\x1bu", b"\x0b", b"\x15", b"\x17",
        b"\x1bd", b"\x19", b"\x1by", b"\x07",
    ];
    let mut rng = Rng(7);
    for _ in 0..200 {
        let room = Room { text: 60, records: 400, texts: 400, slots: rng.below(4) };
        let mut line = line_in(room, "one two\nthree", 4);
        for _ in 0..40 {
            let key = match rng.below(3) {
                0 => rng.character().to_string().into_bytes(),
                1 => rng.pick(&KEYS).to_vec(),
                _ => [&b"\x1b2"[..], rng.pick(&KEYS)].concat(),
            };
            let before = text_and_log(&line);
            if line.key(&key).is_err() {
                assert_eq!(text_and_log(&line), before, "{key:?}");
            }
        }
        while line.undo_list().next().is_some() {
            assert_eq!(line.key(b"\x1f").map(|pressed| pressed.outcome), Ok(DONE));
        }
        assert_eq!(line.text(), "one two\nthree");
    }
}
