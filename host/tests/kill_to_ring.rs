//! kill_to_ring: against the Rust, against the keys that kill, and where line or ring refuse.
mod common;

use common::{line, line_in, Rng};
use tulofewa::{Action, At, CharSearch, EditLine, KillRing, Mode, Movement, Outcome, Refusal, Room, Word};

const DONE: Outcome = Outcome::Done;

fn killed(line: &EditLine) -> Vec<&str> {
    line.ring().texts().collect()
}

/// Text and cursor that are left, the ring's texts and index.
type Left = (&'static str, usize, [&'static str; 2], usize);

/// A session on a ring of two slots, which is reset before every sixth kill; each kill starts from the same line. What
/// it leaves is what rustyline's `LineBuffer::kill` left with its `KillRing` for a listener.
#[test]
fn a_session_of_the_rust() {
    use Movement::*;
    #[rustfmt::skip]
    let rows: [(Movement, Outcome, Left); 18] = [
        (EndOfLine, DONE, ("aa b\nc \nd e", 7, ["cc", ""], 0)),
        (BackwardWord(1, Word::Emacs), DONE, ("aa b\ncc\nd e", 5, ["c cc", ""], 0)),
        (BackwardChar(1), DONE, ("aa b\nccc\nd e", 6, ["c cc", ""], 0)),
        (ForwardWord(1, At::Start, Word::Big), DONE, ("aa b\nc d e", 7, ["c cccc\n", ""], 0)),
        (BeginningOfLine, DONE, ("aa b\ncc\nd e", 5, ["c c cccc\n", ""], 0)),
        (ForwardChar(2), DONE, ("aa b\nc \nd e", 7, ["c c cccc\n", ""], 0)),
        (ViCharSearch(1, CharSearch::Backward('b')), DONE, ("aa cc\nd e", 3, ["c c cccc\n", "b\nc "], 1)),
        (ViCharSearch(1, CharSearch::ForwardBefore('d')), DONE, ("aa b\nc d e", 7, ["c c cccc\n", "b\nc cc\n"], 1)),
        (ViCharSearch(1, CharSearch::BackwardAfter('b')), DONE,
            ("aa bcc\nd e", 4, ["c c cccc\n", "\nc b\nc cc\n"], 1)),
        (ViCharSearch(1, CharSearch::Forward('d')), DONE,
            ("aa b\nc  e", 7, ["c c cccc\n", "\nc b\nc cc\ncc\nd"], 1)),
        (WholeLine, DONE, ("aa b\n\nd e", 5, ["c c cccc\n", "\nc b\nc cc\ncc\ndc cc"], 1)),
        (ViFirstPrint, Outcome::Nothing, ("aa b\nc cc\nd e", 7, ["c c cccc\n", "\nc b\nc cc\ncc\ndc cc"], 1)),
        (LineUp(1), DONE, ("d e", 0, ["aa b\nc cc\n", "\nc b\nc cc\ncc\ndc cc"], 0)),
        (LineDown(1), DONE, ("aa b", 4, ["aa b\nc cc\n\nc cc\nd e", "\nc b\nc cc\ncc\ndc cc"], 0)),
        (BackwardWord(0, Word::Big), DONE,
            ("cc\nd e", 0, ["aa b\nc aa b\nc cc\n\nc cc\nd e", "\nc b\nc cc\ncc\ndc cc"], 0)),
        (BeginningOfBuffer, DONE,
            ("cc\nd e", 0, ["aa b\nc aa b\nc aa b\nc cc\n\nc cc\nd e", "\nc b\nc cc\ncc\ndc cc"], 0)),
        (WholeBuffer, DONE,
            ("", 0, ["aa b\nc aa b\nc aa b\nc cc\n\nc cc\nd eaa b\nc cc\nd e", "\nc b\nc cc\ncc\ndc cc"], 0)),
        (EndOfBuffer, DONE,
            ("aa b\nc ", 7, ["aa b\nc aa b\nc aa b\nc cc\n\nc cc\nd eaa b\nc cc\nd e", "cc\nd e"], 1)),
    ];
    let mut line = EditLine::new(Room { slots: 2, ..Room::default() }).unwrap();
    for (i, (movement, outcome, (text, cursor, slots, index))) in rows.into_iter().enumerate() {
        if i % 6 == 5 {
            line.ring_mut().reset().unwrap();
        }
        line.start("aa b\nc cc\nd e", 7).unwrap();
        assert_eq!(line.kill_to_ring(movement), Ok(outcome), "{movement:?}");
        assert_eq!((line.text(), line.cursor(), line.ring().index()), (text, cursor, index), "{movement:?}");
        let (used, unused) = slots.split_at(line.ring().texts().count());
        assert_eq!((killed(&line), unused.concat().as_str()), (used.to_vec(), ""), "{movement:?}");
    }
}

/// The movement that a key kills, with n.
fn keyed(n: u16) -> [(Movement, Vec<u8>); 4] {
    let key = |key: &str| format!("\x1b{n}{key}").into_bytes();
    [
        (Movement::EndOfLine, key("\x0b")),
        (Movement::BeginningOfLine, key("\x15")),
        (Movement::BackwardWord(n, Word::Big), key("\x17")),
        (Movement::ForwardWord(n, At::AfterEnd, Word::Emacs), key("\x1bd")),
    ]
}

/// Control k, control u, control w and ESC d do the same to line and ring, and are refused alike.
#[test]
fn keys_that_kill() {
    let mut rng = Rng(5);
    let mut numbers = [0; 14];
    for _ in 0..300 {
        let room = Room { text: 40, records: rng.below(30), texts: rng.below(60), slots: rng.below(3) };
        let mut ours = EditLine::new(room).unwrap();
        // a slot that is nearly full
        ours.ring_mut().kill(&"x".repeat(4_060 + rng.below(37)), Mode::Append).unwrap();
        for _ in 0..20 {
            let text = rng.text();
            match rng.below(4) {
                0 => drop(ours.insert(rng.character(), 2)),
                1 => drop(ours.yank(&text, 1)),
                2 => drop(ours.set_pos(rng.place(ours.len()))),
                _ => drop(ours.undo(1)),
            }
            let (movement, key) = keyed(rng.count())[rng.below(4)].clone();
            let mut by_key = ours.clone();
            let before = format!("{ours:?}");
            let (said, pressed) = (ours.kill_to_ring(movement), by_key.key(&key).map(|pressed| pressed.outcome));
            assert_eq!(said, pressed, "{movement:?} {before}");
            assert_eq!(format!("{ours:?}"), format!("{by_key:?}"), "{movement:?} {before}");
            if said.is_err() {
                assert_eq!(format!("{ours:?}"), before, "{movement:?}");
            }
            numbers[said.map_or_else(Refusal::number, Outcome::number) as usize] += 1;
            if rng.below(5) == 0 {
                ours.ring_mut().reset().unwrap();
            }
        }
    }
    let met: Vec<_> = (0..14).filter(|&number| numbers[number] > 0).collect();
    assert_eq!(met, [0, 1, 10, 11], "{numbers:?}");
}

/// What is undone stays to be redone where the ring has no room, or the log.
#[test]
fn neither() -> Result<(), Refusal> {
    let mut full = line("one two", 7);
    full.ring_mut().kill(&"x".repeat(4_094), Mode::Append)?;
    full.insert('!', 1)?;
    full.begin()?;
    full.delete_range(0..1)?;
    full.end()?;
    full.undo(1)?;
    full.set_pos(8)?;
    let before = full.clone();
    assert_eq!(full.kill_to_ring(Movement::BeginningOfLine), Err(Refusal::RingFull));
    assert_eq!(format!("{full:?}"), format!("{before:?}"));
    assert_eq!((full.redo(1)?, full.text()), (DONE, "ne two!"));
    full = before;
    // two bytes fit
    assert_eq!(full.kill_to_ring(Movement::ViCharSearch(1, CharSearch::Backward('o'))), Ok(DONE));
    assert_eq!((full.text(), full.redo_list().count(), killed(&full)[0].len()), ("one tw", 0, 4_096));
    assert!(killed(&full)[0].starts_with("o!x"));

    let mut short = line_in(Room { records: 0, ..Room::default() }, "ab", 1);
    assert_eq!(short.kill_to_ring(Movement::WholeBuffer), Err(Refusal::LogFull));
    assert_eq!((short.text(), short.cursor(), short.ring().last_action()), ("ab", 1, Action::Other));
    Ok(())
}

/// A kill of nothing and the two that delete leave the ring; a ring of size 0 keeps nothing.
#[test]
fn the_ring_is_left() -> Result<(), Refusal> {
    let mut left = line("ab", 2);
    left.ring_mut().kill("kept", Mode::Append)?;
    assert_eq!(left.ring_mut().yank()?, Some("kept"));
    assert_eq!(left.kill_to_ring(Movement::EndOfLine)?, Outcome::Nothing);
    assert_eq!(left.kill_to_ring(Movement::BackwardChar(1))?, DONE);
    assert_eq!((left.text(), left.ring().last_action(), killed(&left)), ("a", Action::Yank(4), vec!["kept"]));
    *left.ring_mut() = KillRing::new(0)?;
    assert_eq!(left.kill_to_ring(Movement::WholeLine)?, DONE);
    assert_eq!((left.text(), left.ring().last_action(), killed(&left)), ("", Action::Kill, vec![]));
    assert_eq!(left.yank_killed(1)?, Outcome::Nothing);
    Ok(())
}
