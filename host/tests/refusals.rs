//! Refusals: every one that can come, and that they change nothing.
mod common;

use common::{line, line_in, Rng};
use std::collections::HashSet;
use tulofewa::ffi::{self, Line, Log, Used};
use tulofewa::{
    Action, CharSearch, EditLine, Foreign, KillRing, Mode, Movement, Outcome, Place, Refusal, Room, Size, RECORDS_MAX,
    SLOTS_MAX, TEXTS_MAX, TEXT_MAX,
};

/// A refusal by each number, and what it says.
const ALL: [(Refusal, &str, &str); 23] = [
    (Refusal::Sizes(Size::Text { len: 4_097 }), "sizes", "a text's buffer has at most 4,096 bytes, not 4,097"),
    (
        Refusal::Sizes(Size::Given { len: 4_097, room: 4_096 }),
        "sizes",
        "the text has 4,097 bytes, the line takes 4,096",
    ),
    (Refusal::Sizes(Size::Given { len: 1, room: 0 }), "sizes", "the text has 1 byte, the line takes 0"),
    (
        Refusal::Sizes(Size::Records { len: 1_000_000 }),
        "sizes",
        "the buffer for records has at most 32,768 bytes, not 1,000,000",
    ),
    (
        Refusal::Sizes(Size::Texts { len: 65_536 }),
        "sizes",
        "the buffer for the records' texts has at most 65,535 bytes, not 65,536",
    ),
    (Refusal::Sizes(Size::Slots { len: 17 }), "sizes", "a ring has at most 16 slots, not 17"),
    (Refusal::Sizes(Size::Slip { len: 4_097 }), "sizes", "a text for a slip has at most 4,096 bytes, not 4,097"),
    (Refusal::Code, "code", "a code names nothing"),
    (
        Refusal::Foreign(Foreign::Char { ch: '\u{4E2D}', at: 0 }),
        "foreign",
        "U+4E2D '\u{4E2D}' at place 0 is outside the catalogue's repertoire",
    ),
    (
        Refusal::Foreign(Foreign::Char { ch: '\u{1B}', at: 4_095 }),
        "foreign",
        "U+001B '\\u{1b}' at place 4,095 is outside the catalogue's repertoire",
    ),
    (Refusal::Foreign(Foreign::Byte { byte: 0xC3, at: 2 }), "foreign", "0xC3 at place 2 is not UTF-8"),
    (Refusal::Place(Place::Beyond { place: 9, len: 4 }), "place", "9 lies beyond the text, which has 4 bytes"),
    (Refusal::Place(Place::StartAfterEnd { start: 2, end: 1 }), "place", "the start, 2, is after the end, 1"),
    (
        Refusal::Place(Place::YankSize { size: 3, cursor: 2 }),
        "place",
        "the yank has 3 bytes, before the cursor stand 2",
    ),
    (Refusal::Split, "split", "a place lies inside a character"),
    (Refusal::Prompt, "prompt", "the prompt is wider than 1,024 columns"),
    (Refusal::Damaged, "damaged", "the log or the ring breaks its layout"),
    (Refusal::Full, "full", "the text would be longer than its buffer"),
    (Refusal::LogFull, "log full", "the log has no room for the change, or too many groups are open"),
    (Refusal::RingFull, "ring full", "a slot of the ring would pass 4,096 bytes"),
    (Refusal::Misfit, "misfit", "a record of the log does not fit the text"),
    (Refusal::Unbound, "unbound", "the bytes are no key"),
    (Refusal::PageFull, "page full", "the slip is longer than its page"),
];

#[test]
fn each_has_its_number_a_word_and_a_sentence() {
    let mut numbers: Vec<_> = ALL.iter().map(|(refusal, ..)| refusal.number()).collect();
    numbers.dedup();
    assert_eq!(numbers, (2..=14).collect::<Vec<_>>());
    for (refusal, word, sentence) in ALL {
        assert_eq!((refusal.word(), refusal.to_string().as_str()), (word, sentence));
    }
    assert_eq!(
        [Outcome::Done, Outcome::Nothing].map(|outcome| (outcome.number(), outcome.word(), outcome.to_string())),
        [(0, "done", "done".to_owned()), (1, "nothing", "nothing".to_owned())]
    );
}

#[test]
fn buffers_over_their_limits() {
    let most = Room::default();
    for room in
        [most, Room { text: 0, records: 1, texts: 2, slots: 3 }, Room { text: 0, records: 0, texts: 0, slots: 0 }]
    {
        assert_eq!(EditLine::new(room).map(|line| line.room()), Ok(room));
    }
    let huge = usize::MAX;
    for (over, size) in [
        (Room { text: TEXT_MAX + 1, ..most }, Size::Text { len: TEXT_MAX + 1 }),
        (Room { records: RECORDS_MAX + 1, ..most }, Size::Records { len: RECORDS_MAX + 1 }),
        (Room { texts: TEXTS_MAX + 1, ..most }, Size::Texts { len: TEXTS_MAX + 1 }),
        (Room { slots: SLOTS_MAX + 1, ..most }, Size::Slots { len: SLOTS_MAX + 1 }),
        (Room { text: huge, records: huge, texts: huge, slots: huge }, Size::Text { len: huge }),
        (Room { records: huge, texts: huge, slots: huge, ..most }, Size::Records { len: huge }),
        (Room { texts: huge, slots: huge, ..most }, Size::Texts { len: huge }),
    ] {
        assert_eq!(EditLine::new(over).err(), Some(Refusal::Sizes(size)), "{over:?}");
    }
    assert_eq!(KillRing::new(huge).err(), Some(Refusal::Sizes(Size::Slots { len: huge })));
}

fn char_at(ch: char, at: usize) -> Refusal {
    Refusal::Foreign(Foreign::Char { ch, at })
}

/// Each call with each number that it can give, and the cause.
#[test]
fn each_call_by_each_number() {
    let small = line_in(Room { text: 4, records: 5, texts: 4, slots: 1 }, "abé", 2);
    let refuses = |wanted, call: &dyn Fn(&mut EditLine) -> Result<Outcome, Refusal>| {
        let mut line = small.clone();
        assert_eq!(call(&mut line), Err(wanted));
        assert_eq!(format!("{line:?}"), format!("{small:?}"));
    };
    let start = |line: &mut EditLine, text: &str, cursor| line.start(text, cursor).map(|()| Outcome::Done);
    let copy = |line: &mut EditLine, movement| line.copy(movement).map(|_| Outcome::Done);
    let place = |text, cursor| line(text, cursor).copy(Movement::ViFirstPrint);

    let given = Refusal::Sizes(Size::Given { len: 5, room: 4 });
    refuses(given, &|line| start(line, "12345", 9));
    refuses(given, &|line| start(line, "12\u{4E2D}", 9));
    refuses(given, &|line| line.update("12345", 9));
    refuses(given, &|line| line.yank("12345", 0));
    refuses(given, &|line| line.yank_pop(9, "12345"));
    refuses(given, &|line| line.replace(0..9, "12345"));

    let search = CharSearch::Backward('\u{17E}');
    let movement = Movement::ViCharSearch(1, search);
    refuses(char_at('\u{B5}', 2), &|line| start(line, "é\u{B5}", 9));
    refuses(char_at('\u{AD}', 1), &|line| line.update("a\u{AD}", 9));
    refuses(char_at('\u{4E2D}', 0), &|line| line.insert('\u{4E2D}', 0));
    refuses(char_at('\u{7F}', 0), &|line| line.yank("\u{7F}\0", 0));
    refuses(char_at('\0', 3), &|line| line.yank_pop(9, "abc\0"));
    refuses(char_at('\u{334}', 0), &|line| line.replace(0..9, "\u{334}"));
    refuses(char_at('\u{17E}', 0), &|line| line.delete_to(search, 0));
    refuses(char_at('\u{17E}', 0), &|line| line.move_to(search, 0));
    refuses(char_at('\u{17E}', 0), &|line| line.kill(movement));
    refuses(char_at('\u{17E}', 0), &|line| line.kill_to_ring(movement));
    refuses(char_at('\u{17E}', 0), &|line| line.indent(movement, 0, false));
    refuses(char_at('\u{17E}', 0), &|line| copy(line, movement));
    refuses(char_at('\u{1}', 0), &|line| line.log_insert(usize::MAX, '\u{1}'));
    refuses(char_at('\u{100}', 5), &|line| line.log_insert_str(usize::MAX, "12345\u{100}"));
    refuses(char_at('\u{100}', 0), &|line| line.log_delete(usize::MAX, "\u{100}"));
    refuses(char_at('\u{100}', 1), &|line| line.log_replace(0, "a\u{100}", "\u{101}"));
    refuses(char_at('\u{101}', 0), &|line| line.log_replace(0, "a", "\u{101}"));
    refuses(char_at('\u{B5}', 0), &|line| line.ring_mut().kill("\u{B5}", Mode::Append));

    let beyond = |place, len| Refusal::Place(Place::Beyond { place, len });
    let after = |start, end| Refusal::Place(Place::StartAfterEnd { start, end });
    let last = usize::MAX;
    let range = |start, end| start..end;
    refuses(beyond(1, 0), &|line| start(line, "", 1));
    refuses(beyond(3, 2), &|line| line.update("é", 3));
    refuses(beyond(5, 4), &|line| line.set_pos(5));
    refuses(beyond(last, 4), &|line| line.replace(range(0, last), "a"));
    refuses(beyond(5, 4), &|line| line.delete_range(range(9, 5)));
    refuses(after(last, 0), &|line| line.delete_range(range(last, 0)));
    refuses(after(4, 3), &|line| line.replace(range(4, 3), ""));
    refuses(Refusal::Place(Place::YankSize { size: 3, cursor: 2 }), &|line| line.yank_pop(3, "a"));
    assert_eq!([place("abc", 1), place("é \n x", 2)], [Err(after(2, 1)), Err(after(5, 2))]);
    assert_eq!(place(" \u{301}b c", 1), Err(after(3, 1)));
    assert_eq!([place("abc", 2), place("abc", 0), place("a", 1)], [Ok(Some(2..2)), Ok(None), Ok(None)]);

    refuses(Refusal::Split, &|line| start(line, "é", 1));
    refuses(Refusal::Split, &|line| line.update("é", 1));
    refuses(Refusal::Split, &|line| line.set_pos(3));
    refuses(Refusal::Split, &|line| line.replace(3..4, "a"));
    refuses(Refusal::Split, &|line| line.delete_range(2..3));
    refuses(Refusal::Prompt, &|line| line.move_to_line_up(1, 1_025));
    refuses(Refusal::Prompt, &|line| line.move_to_line_down(1, usize::MAX));
    refuses(Refusal::Full, &|line| line.insert('a', u16::MAX));
    refuses(Refusal::LogFull, &|line| line.log_insert(65_536, 'a'));
    refuses(Refusal::LogFull, &|line| line.log_insert_str(0, "12345"));
    refuses(Refusal::RingFull, &|line| line.ring_mut().kill(&"a".repeat(TEXT_MAX + 1), Mode::Append));
}

/// A yank from the ring that the line refuses leaves the ring as it was, too.
#[test]
fn the_ring_and_the_line_refuse_together() -> Result<(), Refusal> {
    let mut line = line_in(Room { text: 4, ..Room::default() }, "ab", 2);
    for text in ["12345", "12", "1"] {
        line.ring_mut().kill(text, Mode::Append)?;
        line.ring_mut().reset()?;
    }
    line.yank_killed(1)?;
    line.yank_pop_killed()?;
    let given = Refusal::Sizes(Size::Given { len: 5, room: 4 });
    assert_eq!((line.yank_pop_killed(), line.text()), (Err(given), "ab12"));
    assert_eq!(line.yank_killed(1), Err(Refusal::Full));
    line.set_pos(1)?;
    assert_eq!(line.ring().last_action(), Action::Yank(2));
    // the text to put in is tried first
    assert_eq!(line.yank_pop_killed(), Err(given));
    assert_eq!(line.ring_mut().yank_pop()?, Some((2, "12345")));
    assert_eq!(line.yank_killed(0), Err(given));
    assert_eq!(line.yank_pop_killed(), Err(Refusal::Place(Place::YankSize { size: 5, cursor: 1 })));
    assert_eq!(line.ring_mut().yank_pop()?, Some((5, "1")));
    line.start("é", 2)?;
    assert_eq!(line.yank_pop_killed(), Err(Refusal::Split));
    assert_eq!(line.ring_mut().yank_pop()?, Some((1, "12")));
    Ok(())
}

/// Level 256, a full records buffer, a record that does not fit the text.
#[test]
fn a_log_that_takes_no_more() -> Result<(), Refusal> {
    let mut deep = line("", 0);
    for mark in 0..255 {
        assert_eq!(deep.begin()?, mark);
    }
    assert_eq!(deep.begin(), Err(Refusal::LogFull));
    let mut short = line_in(Room { records: 0, ..Room::default() }, "a", 0);
    assert_eq!((short.kill_buffer(), short.text()), (Err(Refusal::LogFull), "a"));
    Ok(())
}

/// Undo stops before the record in the way; what was undone before it stays undone.
#[test]
fn a_stop_keeps_what_was_reached() -> Result<(), Refusal> {
    let mut line = line("a", 1);
    line.log_insert_str(7, "misfit")?;
    line.insert('b', 1)?;
    assert_eq!(line.undo(2), Err(Refusal::Misfit));
    assert_eq!((line.text(), line.undo_list().count(), line.redo_list().count()), ("a", 1, 1));
    assert_eq!(line.redo(1)?, Outcome::Done);
    assert_eq!(line.text(), "ab");
    Ok(())
}

/// The two that an `EditLine` cannot meet, on the library itself.
#[test]
fn codes_and_damaged_logs() {
    let line = Line { len: 0, cursor: 0 };
    let (records, texts) = ([0; 1], [0; 1]);
    let log = Log { undo: Used { records: 1, texts: 0 }, ..Log::default() };
    // SAFETY: buffers of this function, each with its length.
    let (code, damaged) = unsafe {
        let code = ffi::tlf_line_copy(records.as_ptr(), 1, line, 14, 0, 0, 0, 0, 0);
        (code, ffi::tlf_log_last_insert(records.as_ptr(), 1, texts.as_ptr(), 1, log))
    };
    assert_eq!((code.number, damaged.number), (Refusal::Code.number(), Refusal::Damaged.number()));
}

/// Any call with anything, the log's own calls too, which may record what does not fit the text.
fn anything(line: &mut EditLine, rng: &mut Rng) -> (bool, Result<Outcome, Refusal>) {
    let (len, n) = (line.text().len(), rng.count());
    let (text, other) = (rng.text(), rng.text());
    let range = rng.place(len)..rng.place(len);
    let stops = |result| (true, result);
    let result = match rng.below(33) {
        0 => return stops(line.undo(n)),
        1 => return stops(line.redo(n)),
        2 => return stops(line.cancel(rng.place(5))),
        3 => line.begin().map(|_| Outcome::Done),
        4 => line.end(),
        5 => line.log_insert(range.start, rng.character()),
        6 => line.log_insert_str(range.start, &text),
        7 => line.log_delete(range.start, &text),
        8 => line.log_replace(range.start, &text, &other),
        9 => line.log_truncate(range.start),
        10 => line.last_insert().map(|_| Outcome::Done),
        11 => line.start(&text, range.start).map(|()| Outcome::Done),
        12 => line.ring_mut().kill(&text, rng.pick(&[Mode::Append, Mode::Prepend])),
        13 => line.ring_mut().reset(),
        14 => line.yank_killed(n),
        15 => line.yank_pop_killed(),
        16 => line.yank_pop(range.start, &text),
        17 => line.update(&text, range.start),
        18 => line.replace(range, &text),
        19 => line.delete_range(range),
        20 => line.set_pos(range.start),
        21 => line.move_to_line_up(n, range.start),
        22 => line.kill(rng.movement()),
        23 => line.indent(rng.movement(), rng.below(256) as u8, rng.below(2) == 0),
        24 => line.copy(rng.movement()).map(|_| Outcome::Done),
        25 => line.yank(&text, n),
        26 => line.edit_word(rng.action()),
        27 => line.transpose_words(n),
        28 => line.delete_to(rng.search(), n),
        29 => line.kill_to_ring(rng.movement()),
        30 | 31 => return stops(line.key(&rng.key()).map(|pressed| pressed.outcome)),
        _ => line.insert(rng.character(), n),
    };
    (false, result)
}

#[test]
fn a_refusal_changes_nothing() {
    let mut rng = Rng(1);
    let mut seen = HashSet::new();
    for _ in 0..300 {
        let room = Room { text: rng.below(40), records: rng.below(80), texts: rng.below(60), slots: rng.below(3) };
        let mut line = EditLine::new(room).unwrap();
        for _ in 0..60 {
            let before = format!("{line:?}");
            let (may_stop, result) = anything(&mut line, &mut rng);
            if let Err(refusal) = result {
                let stop = may_stop && matches!(refusal, Refusal::Full | Refusal::Misfit);
                assert!(stop || format!("{line:?}") == before, "{refusal:?} changed {before} to {line:?}");
                // every number has its cause
                assert!(!matches!(refusal, Refusal::Unknown(_)), "{refusal:?} of {before}");
            }
            assert!(line.text().is_char_boundary(line.cursor()), "{line:?}");
            seen.insert(result.map_err(Refusal::number));
        }
    }
    let met: HashSet<_> = seen.iter().filter_map(|said| said.err()).collect();
    assert_eq!(met, HashSet::from([2, 4, 5, 6, 7, 9, 10, 12, 13]));
}

/// No movement of the enum is a code that names nothing: only a search for a foreign character is refused.
#[test]
fn every_movement_is_taken() {
    let mut rng = Rng(2);
    for _ in 0..2_000 {
        let text: String = std::iter::repeat_with(|| rng.character()).filter(|&ch| ch != '\u{4E2D}').take(12).collect();
        let movement = rng.movement();
        let searches_foreign = format!("{movement:?}").contains('\u{4E2D}');
        let mut line = line(&text, 0);
        let cursor = rng.place(text.len());
        if line.set_pos(cursor).is_ok() {
            assert_eq!(line.kill(movement).is_err(), searches_foreign, "{movement:?} {text:?} {cursor}");
        }
    }
}
