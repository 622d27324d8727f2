//! What is shown: the line with its cursor, the log, the ring, the room.
mod log;

use log::log;
use std::io::{self, Write};
use tulofewa::{Action, EditLine, KillRing, Room};

/// A text in quotes, written as `Change` writes it: what cannot be seen, and a mark, is an escape.
pub fn quoted(text: &str) -> String {
    format!("{text:?}")
}

/// A line of input as it can be shown anywhere: control characters but the tab are escapes, and so are bytes that are
/// not UTF-8.
pub fn visible(line: &[u8]) -> String {
    let mut shown = String::new();
    for chunk in line.utf8_chunks() {
        for ch in chunk.valid().chars() {
            if ch.is_control() && ch != '\t' {
                shown.extend(ch.escape_default());
            } else {
                shown.push(ch);
            }
        }
        for byte in chunk.invalid() {
            shown.push_str(&format!("\\x{byte:02x}"));
        }
    }
    shown
}

/// All of it, whole.
pub fn all(line: &EditLine, out: &mut impl Write) -> io::Result<()> {
    text(line, out)?;
    log(line, None, out)?;
    ring(line.ring(), out)
}

/// What a call has changed.
pub fn changed(before: &EditLine, after: &EditLine, out: &mut impl Write) -> io::Result<()> {
    if (before.text(), before.cursor()) != (after.text(), after.cursor()) {
        text(after, out)?;
    }
    if before.level() != after.level()
        || before.undo_list().ne(after.undo_list())
        || before.redo_list().ne(after.redo_list())
    {
        log(after, Some(before), out)?;
    }
    let state = |ring: &KillRing| (ring.size(), ring.index(), ring.last_action());
    if state(before.ring()) != state(after.ring()) || before.ring().texts().ne(after.ring().texts()) {
        ring(after.ring(), out)?;
    }
    if before.room() != after.room() {
        room(after, out)?;
    }
    Ok(())
}

/// The text with a bar where the cursor is. A bar in the text is an escape.
fn text(line: &EditLine, out: &mut impl Write) -> io::Result<()> {
    let (text, cursor) = (line.text(), line.cursor());
    let (before, behind) = text.split_at_checked(cursor).unwrap_or((text, ""));
    let [before, behind] = [before, behind].map(inside_quotes);
    writeln!(out, "  line  \"{before}|{behind}\", cursor {cursor} of {}", text.len())
}

fn inside_quotes(text: &str) -> String {
    let quoted = quoted(text).replace('|', "\\u{7c}");
    let inside = quoted.strip_prefix('"').and_then(|rest| rest.strip_suffix('"'));
    inside.unwrap_or_default().to_owned()
}

/// The slots in use, a star before the one that `ring_yank` takes.
fn ring(ring: &KillRing, out: &mut impl Write) -> io::Result<()> {
    let action = match ring.last_action() {
        Action::Kill => "kill".to_owned(),
        Action::Yank(size) => format!("yank of size {size}"),
        Action::Other => "other".to_owned(),
    };
    writeln!(out, "  ring  {} of {} slots, last action {action}", ring.texts().count(), ring.size())?;
    for (slot, text) in ring.texts().enumerate() {
        let star = if slot == ring.index() { '*' } else { ' ' };
        writeln!(out, "  {star} {slot:<3} {}", quoted(text))?;
    }
    Ok(())
}

/// The sizes of the buffers.
pub fn room(line: &EditLine, out: &mut impl Write) -> io::Result<()> {
    let Room { text, records, texts, slots } = line.room();
    writeln!(out, "  room  text {text}, records {records}, texts {texts} bytes; ring {slots} slots")
}
