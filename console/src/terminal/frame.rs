//! A frame: prompt, text, cursor, status row and panel, as the bytes of one write.
use tulofewa::{advance, foreign};

/// The cursor is not seen while a frame is drawn.
const HIDDEN: &[u8] = b"\x1b[?25l";
const SEEN: &[u8] = b"\x1b[?25h";

/// What is to be seen.
pub struct View<'a> {
    pub prompt: &'a str,
    pub text: &'a str,
    pub cursor: usize,
    pub status: &'a str,
    pub panel: &'a [String],
    pub bell: bool,
}

/// The terminal's size, and where its cursor stands.
pub struct Screen {
    columns: usize,
    rows: usize,
    /// Rows of the last frame above the cursor.
    above: usize,
}

/// A text in rows, and the cell of its cursor.
struct Laid {
    rows: Vec<String>,
    row: usize,
    column: usize,
}

impl Screen {
    pub fn new(size: (usize, usize)) -> Screen {
        let (columns, rows) = size;
        Screen { columns: columns.max(1), rows: rows.max(1), above: 0 }
    }

    /// Another size: what stands on the screen may have been wrapped anew, so all of it is cleared.
    pub fn resized(&mut self, size: (usize, usize)) -> Vec<u8> {
        *self = Screen::new(size);
        self.cleared()
    }

    /// The bytes that clear the screen: the next frame begins at its top.
    pub fn cleared(&mut self) -> Vec<u8> {
        self.above = 0;
        b"\x1b[H\x1b[2J".to_vec()
    }

    /// The bytes that take the last frame away.
    pub fn gone(&mut self) -> Vec<u8> {
        let mut bytes = String::new();
        moved(&mut bytes, self.above, 'A');
        bytes.push_str("\r\x1b[J");
        self.above = 0;
        bytes.into_bytes()
    }

    /// The bytes of a frame, in the place of the last one. Where the rows are too many, the text has those around its
    /// cursor, and at least half of the screen.
    pub fn frame(&mut self, view: &View<'_>) -> Vec<u8> {
        let laid = lay(view.prompt, view.text, view.cursor, self.columns);
        let room = self.rows.saturating_sub(1);
        let least = laid.rows.len().min(room.div_ceil(2));
        let panel = shortened(view.panel, room.saturating_sub(least));
        let seen = room.saturating_sub(panel.len()).max(1);
        let top = laid.row.saturating_sub(seen / 2).min(laid.rows.len().saturating_sub(seen));
        let mut rows: Vec<_> = laid.rows.into_iter().skip(top).take(seen).collect();
        if self.rows > 1 {
            rows.push(format!("\x1b[7m{}\x1b[0m", cut(view.status, self.columns)));
            rows.extend(panel.iter().map(|row| cut(row, self.columns)));
        }
        self.put(&rows, laid.row.saturating_sub(top), laid.column, view.bell)
    }

    /// The bytes that leave the text on the screen, all of it, and go to the row behind it.
    pub fn finished(&mut self, prompt: &str, text: &str) -> Vec<u8> {
        let laid = lay(prompt, text, text.len(), self.columns);
        let mut bytes = self.put(&laid.rows, laid.row, laid.column, false);
        bytes.extend(b"\r\n");
        self.above = 0;
        bytes
    }

    fn put(&mut self, rows: &[String], row: usize, column: usize, bell: bool) -> Vec<u8> {
        let mut drawn = rows.join("\r\n");
        moved(&mut drawn, rows.len().saturating_sub(1).saturating_sub(row), 'A');
        drawn.push('\r');
        moved(&mut drawn, column, 'C');
        let bell = if bell { "\x07" } else { "" };
        let bytes = [HIDDEN, &self.gone(), drawn.as_bytes(), SEEN, bell.as_bytes()].concat();
        self.above = row;
        bytes
    }
}

/// The cursor goes n cells in a direction; n = 0 would be 1 to a terminal.
fn moved(bytes: &mut String, n: usize, direction: char) {
    if n > 0 {
        bytes.push_str(&format!("\x1b[{n}{direction}"));
    }
}

/// A row ends with \n and where the next character would pass the last column. The cursor behind the last column stands
/// in the row below.
fn lay(prompt: &str, text: &str, cursor: usize, columns: usize) -> Laid {
    let mut pen = Pen { rows: vec![String::new()], column: 0, columns };
    prompt.chars().for_each(|ch| pen.put(ch));
    let (before, behind) = text.split_at_checked(cursor).unwrap_or((text, ""));
    before.chars().for_each(|ch| pen.put(ch));
    // A mark goes to the cell of its letter, whatever else is next to a cell of its own.
    if behind.chars().next().is_none_or(|ch| ch == '\n' || advance(0, ch) > 0) && pen.column >= columns {
        pen.next_row();
    }
    let row = pen.rows.len().saturating_sub(1);
    let column = pen.column.min(columns.saturating_sub(1));
    behind.chars().for_each(|ch| pen.put(ch));
    Laid { rows: pen.rows, row, column }
}

/// What writes the rows, and the column where it stands.
struct Pen {
    rows: Vec<String>,
    column: usize,
    columns: usize,
}

impl Pen {
    fn next_row(&mut self) {
        self.rows.push(String::new());
        self.column = 0;
    }

    /// A character in this row, or in the next. Those that a terminal obeys are letters in reverse, one cell each.
    fn put(&mut self, ch: char) {
        if ch == '\n' {
            return self.next_row();
        }
        if advance(self.column, ch) > self.columns.max(self.column) {
            self.next_row();
        }
        self.column = advance(self.column, ch);
        let Some(row) = self.rows.last_mut() else { return };
        match ch {
            '\t' => row.push_str("\x1b[7mI\x1b[0m"),
            '\r' => row.push_str("\x1b[7mM\x1b[0m"),
            _ => row.push(ch),
        }
    }
}

/// As much of a row as fits. What a terminal obeys, and what is foreign, of which the cells are not known, is a question
/// mark.
fn cut(row: &str, columns: usize) -> String {
    let mut column = 0;
    let fits = |ch: &char| {
        column = advance(column, *ch);
        column <= columns
    };
    row.chars().map(|ch| if is_plain(ch) { ch } else { '?' }).take_while(fits).collect()
}

fn is_plain(ch: char) -> bool {
    !ch.is_control() && foreign(ch.encode_utf8(&mut [0; 4])).is_none()
}

/// The first of some rows, and how many more there are.
fn shortened(rows: &[String], most: usize) -> Vec<String> {
    if rows.len() <= most {
        return rows.to_vec();
    }
    let seen = most.saturating_sub(1);
    let mut shown: Vec<_> = rows.iter().take(seen).cloned().collect();
    if most > 0 {
        shown.push(format!("... {} more", rows.len().saturating_sub(seen)));
    }
    shown
}

#[cfg(test)]
mod tests {
    use super::*;

    /// The rows, and where the cursor stands.
    fn laid(prompt: &str, text: &str, cursor: usize, columns: usize) -> (String, usize, usize) {
        let laid = lay(prompt, text, cursor, columns);
        (laid.rows.join("/"), laid.row, laid.column)
    }

    fn wants(found: (String, usize, usize), rows: &str, row: usize, column: usize) {
        assert_eq!(found, (rows.to_owned(), row, column));
    }

    #[test]
    fn rows_wrap_at_the_last_column() {
        wants(laid("> ", "", 0, 5), "> ", 0, 2);
        wants(laid("> ", "abc", 2, 5), "> abc", 0, 4);
        wants(laid("> ", "abc", 3, 5), "> abc/", 1, 0);
        wants(laid("> ", "abcd", 3, 5), "> abc/d", 1, 0);
        wants(laid("> ", "abcd", 4, 5), "> abc/d", 1, 1);
        wants(laid("> ", "ab", 2, 1), ">/ /a/b/", 4, 0);
    }

    #[test]
    fn newlines() {
        wants(laid("> ", "a\nb", 1, 5), "> a/b", 0, 3);
        wants(laid("> ", "a\nb", 2, 5), "> a/b", 1, 0);
        wants(laid("> ", "a\n", 2, 5), "> a/", 1, 0);
        // a full row, then a newline
        wants(laid("> ", "abc\nd", 4, 5), "> abc/d", 1, 0);
        wants(laid("> ", "abc\nd", 3, 5), "> abc//d", 1, 0);
    }

    #[test]
    fn marks_take_no_cell() {
        wants(laid("> ", "e\u{301}x", 3, 5), "> e\u{301}x", 0, 3);
        // behind the last column a mark stays with its letter
        wants(laid("> ", "abe\u{301}x", 5, 5), "> abe\u{301}/x", 1, 0);
        wants(laid("> ", "abe\u{301}", 3, 5), "> abe\u{301}", 0, 4);
    }

    #[test]
    fn what_a_terminal_obeys_is_a_letter() {
        wants(laid("", "\t\r", 1, 5), "\x1b[7mI\x1b[0m\x1b[7mM\x1b[0m", 0, 1);
    }

    #[test]
    fn other_rows_are_cut() {
        assert_eq!(cut("e\u{301}\tab", 3), "e\u{301}?a");
        assert_eq!(cut("'\u{4e2d}' at 3", 5), "'?' a");
    }

    fn frame(screen: &mut Screen, text: &str, cursor: usize, panel: &[String]) -> String {
        let view = View { prompt: "> ", text, cursor, status: "0 done", panel, bell: false };
        String::from_utf8(screen.frame(&view)).unwrap()
    }

    #[test]
    fn a_frame_takes_the_last_ones_place() {
        let mut screen = Screen::new((5, 24));
        let first = frame(&mut screen, "abcd", 4, &[]);
        assert_eq!(first, "\x1b[?25l\r\x1b[J> abc\r\nd\r\n\x1b[7m0 don\x1b[0m\x1b[1A\r\x1b[1C\x1b[?25h");
        let second = frame(&mut screen, "abcd", 0, &[]);
        assert_eq!(second, "\x1b[?25l\x1b[1A\r\x1b[J> abc\r\nd\r\n\x1b[7m0 don\x1b[0m\x1b[2A\r\x1b[2C\x1b[?25h");
    }

    /// No frame has more rows than the screen, and the cursor's is among them.
    #[test]
    fn a_frame_fits_the_screen() {
        let panel: Vec<_> = (0..9).map(|n| n.to_string()).collect();
        let text = "abcdefghij".repeat(9);
        for rows in 1..30 {
            for cursor in 0..=text.len() {
                for panel in [&panel[..], &[]] {
                    let mut screen = Screen::new((10, rows));
                    let drawn = frame(&mut screen, &text, cursor, panel);
                    assert!(drawn.matches("\r\n").count() < rows, "{rows} {cursor}");
                    assert!(screen.above < rows, "{rows} {cursor}");
                }
            }
        }
        let drawn = frame(&mut Screen::new((10, 8)), "abc", 0, &panel);
        assert!(drawn.contains("4\r\n... 4 more"), "{drawn:?}");
    }
}
