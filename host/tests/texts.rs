//! What can be asked of a text alone: what is foreign in it, and how wide it is. Both against the library.
mod common;

use common::line;
use tulofewa::{advance, foreign, width, EditLine, Foreign, Outcome};

/// Document 01's repertoire.
fn in_document_01(ch: char) -> bool {
    match ch {
        '\u{AD}' | '\u{B5}' => false,
        '\t' | '\n' | '\r' | ' '..='~' | '\u{A0}'..='\u{FF}' | '\u{178}' | '\u{300}'..='\u{333}' => true,
        _ => false,
    }
}

fn repertoire() -> Vec<char> {
    ('\0'..=char::MAX).filter(|&ch| in_document_01(ch)).collect()
}

#[test]
fn every_character() {
    let mut members = 0;
    for ch in '\0'..=char::MAX {
        let text = format!("e\u{301}{ch}");
        let wanted = if in_document_01(ch) { None } else { Some(Foreign::Char { ch, at: 3 }) };
        assert_eq!(foreign(&text), wanted, "{ch:?}");
        members += usize::from(wanted.is_none());
    }
    assert_eq!((members, repertoire().len()), (245, 245));
}

/// The first is told, and where there is none a line takes the text.
#[test]
fn texts() {
    let member: String = repertoire().into_iter().collect();
    assert_eq!((foreign(""), foreign(&member), foreign(&member.repeat(20))), (None, None, None));
    EditLine::default().start(&member, 0).unwrap();
    assert_eq!(foreign("a\u{80}\u{4E2D}"), Some(Foreign::Char { ch: '\u{80}', at: 1 }));
    assert_eq!(foreign(&format!("{member}\0")), Some(Foreign::Char { ch: '\0', at: member.len() }));
}

/// A mark takes no column: it joins the cluster before it, and a line move lands as if it were not there. Every other
/// character takes one.
#[test]
fn columns_are_the_librarys() {
    let mut marks = 0;
    for ch in repertoire() {
        let columns = advance(0, ch);
        let joined = format!("a{ch}");
        let cluster = line(&joined, 0).next_pos(1).unwrap();
        assert_eq!(cluster == Some(joined.len()), columns == 0, "{ch:?}");
        marks += usize::from(columns == 0);
        // a newline is no part of a line
        if ch != '\n' {
            let text = format!("abcd\nx{ch}");
            let mut up = line(&text, text.len());
            assert_eq!(up.move_to_line_up(1, 0), Ok(Outcome::Done));
            assert_eq!((up.cursor(), advance(1, ch)), (width(&format!("x{ch}"), 0), up.cursor()), "{ch:?}");
        }
    }
    assert_eq!(marks, 0x34);
}

#[test]
fn widths_add_up() {
    assert_eq!((width("", 7), width("e\u{301}\u{302}x", 7), width("a\tb\r", 0)), (0, 2, 4));
    assert_eq!((advance(7, 'é'), advance(7, '\u{333}'), advance(7, '\u{334}')), (8, 7, 8));
    let text: String = repertoire().into_iter().collect();
    assert_eq!(width(&text, 3), width(&text, 0));
    // the library measures the same, with a prompt as the column that the first line starts at
    let long = format!("{}\n{}", "a".repeat(300), text.replace('\n', ""));
    let mut up = line(&long, long.len());
    assert_eq!(up.move_to_line_up(1, 0), Ok(Outcome::Done));
    assert_eq!(up.cursor(), width(&text, 0) - 1);
    let mut up = line(&long, long.len());
    assert_eq!(up.move_to_line_up(1, 5), Ok(Outcome::Done));
    assert_eq!(up.cursor(), width(&text, 0) - 1 - 5);
}
