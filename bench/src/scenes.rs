//! What stands in the buffers before a batch of calls.
use crate::editor::Editor;
use crate::inputs::{ENGLISH, MIXED, Session, randoms, text};
use crate::sizes::SLOTS;

#[derive(Clone, Copy)]
pub enum Place {
    Start,
    Middle,
    End,
}
use Place::*;

/// Each is of a size. The log is empty where none is named.
#[derive(Clone, Copy)]
pub enum Scene {
    /// English of so many bytes.
    English(Place),
    /// The same with accents.
    Mixed(Place),
    /// So many lines of 24 bytes with newlines between them. The cursor is in the middle of the last one.
    Lines,
    /// So many newlines.
    Newlines(Place),
    /// So many lines of one space.
    SpacedLines,
    /// A letter and marks, so many bytes.
    Marks(Place),
    /// One word of so many bytes.
    Word(Place),
    /// So many spaces.
    Spaces,
    /// No text. The size is the calls' own.
    Empty,
    /// So many bytes of records of a session of typing words, behind 1,000 bytes of English.
    Logged,
    /// The same with a character typed behind.
    LoggedTyped,
    /// So many indented lines of 8 bytes each, and a session's log that is longer in the same measure.
    LoggedLines,
    /// The same without a log.
    IndentedLines,
    /// So many words of three letters typed, each a unit.
    Units,
    /// So many spaces typed at the start of a text three times as long, each a unit.
    UnitsAtStart,
    /// The same by turns at the start and at the end.
    UnitsAtBothEnds,
    /// So many spaces typed by turns at the start and at the end of a text of 3,000 bytes, each a unit.
    UnitsAtEndsOf3000,
    /// 250 spaces typed by turns at the start and at the end of a text of so many bytes, each a unit.
    UnitsAtEndsOfText,
    /// So many spaces typed anywhere in a text three times as long, each a unit.
    UnitsAnywhere,
    /// A group of so many words typed, not ended.
    Group,
    /// A ring of 16 slots with so many bytes each.
    Ring,
}
use Scene::*;

/// The bytes of records for each line of `LoggedLines`: at 400 lines there is room for one more record a line.
const RECORDS_A_LINE: usize = 71;

/// The bytes of records that the session must have had for a scene.
pub fn session_size(scene: Scene, size: usize) -> Option<usize> {
    match scene {
        Logged | LoggedTyped => Some(size),
        LoggedLines => Some(size * RECORDS_A_LINE),
        _ => None,
    }
}

fn placed<E: Editor>(text: &str, place: Place) -> E {
    let mut e = E::new(text);
    match place {
        Start => e.set_cursor(0),
        Middle => {
            let middle = (0..=text.len() / 2).rev().find(|&at| text.is_char_boundary(at));
            e.set_cursor(middle.expect("0 is a boundary"));
        }
        End => {}
    }
    e
}

fn type_words<E: Editor>(e: &mut E, count: usize) {
    for _ in 0..count {
        " box".chars().for_each(|ch| assert!(e.insert(ch)));
    }
}

/// Spaces typed by turns at the start and at the end of a text of so many bytes, each a unit.
fn at_both_ends<E: Editor>(bytes: usize, units: usize) -> E {
    let mut e: E = placed(&text(ENGLISH, bytes), Start);
    for typed in 0..units {
        e.set_cursor(if typed % 2 == 0 { 0 } else { bytes + typed });
        assert!(e.insert(' '));
    }
    e
}

/// Spaces typed anywhere in a text of so many bytes, each a unit.
fn anywhere<E: Editor>(bytes: usize, units: usize) -> E {
    let mut e: E = placed(&text(ENGLISH, bytes), Start);
    for (typed, random) in (0..units).zip(randoms()) {
        e.set_cursor(random % (bytes + typed + 1));
        assert!(e.insert(' '));
    }
    e
}

pub fn scene<E: Editor>(scene: Scene, size: usize, session: &Session<E>) -> E {
    match scene {
        English(place) => placed(&text(ENGLISH, size), place),
        Mixed(place) => placed(&text(MIXED, size), place),
        Lines => {
            let line = "Rentals, box 12, 1701-49";
            let mut e: E = placed(&vec![line; size].join("\n"), Start);
            e.set_cursor((size - 1) * (line.len() + 1) + line.len() / 2);
            e
        }
        Newlines(place) => placed(&"\n".repeat(size), place),
        SpacedLines => placed(&" \n".repeat(size), Start),
        Marks(place) => placed(&format!("e{}", "\u{301}".repeat((size - 1) / 2)), place),
        Word(place) => placed(&"a".repeat(size), place),
        Spaces => placed(&" ".repeat(size), Start),
        Empty => E::new(""),
        Logged => {
            let mut e = E::new("");
            e.restore(session.at(size));
            e
        }
        LoggedTyped => {
            let mut e: E = self::scene(Logged, size, session);
            assert!(e.insert(' '));
            e
        }
        LoggedLines => {
            let mut e: E = self::scene(IndentedLines, size, session);
            e.take_log(session.at(size * RECORDS_A_LINE));
            e
        }
        IndentedLines => placed(&" leases\n".repeat(size), Start),
        Units => {
            let mut e = E::new("");
            type_words(&mut e, size);
            e
        }
        UnitsAtStart => {
            let mut e: E = placed(&text(ENGLISH, 3 * size), Start);
            for _ in 0..size {
                assert!(e.insert(' '));
                e.set_cursor(0);
            }
            e
        }
        UnitsAtBothEnds => at_both_ends(3 * size, size),
        UnitsAtEndsOf3000 => at_both_ends(3_000, size),
        UnitsAtEndsOfText => at_both_ends(size, 250),
        UnitsAnywhere => anywhere(3 * size, size),
        Group => {
            let mut e = E::new("");
            assert!(e.begin());
            type_words(&mut e, size);
            e
        }
        Ring => {
            let mut e = E::new("");
            for _ in 0..SLOTS {
                assert!(e.ring_reset() & e.ring_kill(&text(ENGLISH, size)));
            }
            e
        }
    }
}
