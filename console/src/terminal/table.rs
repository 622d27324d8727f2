//! The keys at the terminal. One table binds them and prints as help; what it does not bind goes to the library.
use tulofewa::{At, EditLine, Movement, Outcome, Refusal, Word};

/// What a key does.
#[derive(Clone, Copy)]
pub enum Act {
    /// A call of the line, with n and the column where its first line starts. The ring is reset.
    Call(fn(&mut EditLine, u16, usize) -> Result<Outcome, Refusal>),
    /// A kill of this movement, to the ring.
    Kill(fn(u16) -> Movement),
    /// A key of the library's.
    Library,
    Enter,
    /// On an empty line leaves, else a key of the library's.
    EndOfInput,
    Leave,
    Suggest,
    Dismiss,
    Panel,
    List,
    Redraw,
    Suspend,
}

/// A row: the names of some keys, their bytes and what they do. The bytes of the library's own keys are the library's.
pub struct Row {
    pub names: &'static str,
    pub bytes: &'static [&'static [u8]],
    pub act: Act,
    pub about: &'static str,
}

const fn row(names: &'static str, bytes: &'static [&'static [u8]], act: Act, about: &'static str) -> Row {
    Row { names, bytes, act, about }
}

const fn library(names: &'static str, about: &'static str) -> Row {
    row(names, &[], Act::Library, about)
}

/// Control x, the first byte of keys that have two.
pub const CONTROL_X: u8 = 0x18;

/// Rows under a title.
pub struct Part {
    pub title: &'static str,
    pub rows: &'static [Row],
}

pub const TABLE: [Part; 4] = [
    Part {
        title: "The line",
        rows: &[
            row("Enter", &[b"\r"], Act::Enter, "keeps a suggestion, else finishes the line and prints it"),
            row("ESC Enter, C-j", &[b"\x1b\r"], Act::Call(|line, n, _| line.insert('\n', n)), "a newline"),
            row("C-d", &[b"\x04"], Act::EndOfInput, "on an empty line leaves, else cuts a character"),
            row("C-c", &[b"\x03"], Act::Leave, "leaves; twice where the line is not empty"),
            row("C-x s", &[b"\x18s"], Act::Suggest, "a suggestion for the first word: Enter keeps it"),
            row("C-g", &[b"\x07"], Act::Dismiss, "dismisses it; every other key keeps it"),
            row("C-x p", &[b"\x18p"], Act::Panel, "shows or hides the undo list, the redo list, the ring"),
            row("C-x h, F1", &[b"\x18h", b"\x1bOP", b"\x1b[11~", b"\x1b[[A"], Act::List, "lists the keys"),
            row("C-l", &[b"\x0c"], Act::Redraw, "draws the screen anew"),
            row("C-z", &[b"\x1a"], Act::Suspend, "stops the program; the shell's fg goes on"),
        ],
    },
    Part {
        title: "Moving",
        rows: &[
            row("Left, C-b", LEFT, Act::Call(|line, n, _| line.move_backward(n)), "a character back"),
            row("Right, C-f", RIGHT, Act::Call(|line, n, _| line.move_forward(n)), "a character on"),
            row("Up", UP, Act::Call(|line, n, prompt| line.move_to_line_up(n, prompt)), "a line up"),
            row("Down", DOWN, Act::Call(|line, n, prompt| line.move_to_line_down(n, prompt)), "a line down"),
            row("Home, C-a", HOME, Act::Call(|line, _, _| line.move_home()), "the line's start"),
            row("End, C-e", END, Act::Call(|line, _, _| line.move_end()), "the line's end"),
            row("C-Home", &[b"\x1b[1;5H"], Act::Call(|line, _, _| line.move_buffer_start()), "the text's start"),
            row("C-End", &[b"\x1b[1;5F"], Act::Call(|line, _, _| line.move_buffer_end()), "the text's end"),
            row("C-Left, ESC b", WORD_LEFT, Act::Call(word_back), "a word back"),
            row("C-Right, ESC f", WORD_RIGHT, Act::Call(word_on), "a word on"),
        ],
    },
    Part {
        title: "Editing",
        rows: &[
            library("a character, Tab", "puts it in"),
            row("Backspace, C-h", BACKSPACE, Act::Call(|line, n, _| line.backspace(n)), "cuts the character before"),
            row("Delete", &[b"\x1b[3~"], Act::Call(delete), "cuts the character at the cursor"),
            library("C-_", "undoes"),
            row("C-x r", &[b"\x18r"], Act::Call(|line, n, _| line.redo(n)), "redoes"),
            library("C-t, ESC t", "exchanges two characters, two words"),
            library("ESC c, ESC l, ESC u", "capitalizes a word, lower case, upper case"),
        ],
    },
    Part {
        title: "The ring",
        rows: &[
            library("C-k, C-u", "kills to the line's end, to its start"),
            library("C-w, ESC d", "kills back to a blank, a word on"),
            row("ESC Backspace", WORD_CUT, Act::Kill(|n| Movement::BackwardWord(n, Word::Emacs)), "kills a word back"),
            library("C-y, ESC y", "yanks what was killed; then what was killed before"),
        ],
    },
];

const LEFT: &[&[u8]] = &[b"\x1b[D", b"\x1bOD"];
const RIGHT: &[&[u8]] = &[b"\x1b[C", b"\x1bOC"];
const UP: &[&[u8]] = &[b"\x1b[A", b"\x1bOA"];
const DOWN: &[&[u8]] = &[b"\x1b[B", b"\x1bOB"];
const HOME: &[&[u8]] = &[b"\x1b[H", b"\x1bOH", b"\x1b[1~", b"\x1b[7~"];
const END: &[&[u8]] = &[b"\x1b[F", b"\x1bOF", b"\x1b[4~", b"\x1b[8~"];
const WORD_LEFT: &[&[u8]] = &[b"\x1b[1;5D", b"\x1b[1;3D", b"\x1bOd"];
const WORD_RIGHT: &[&[u8]] = &[b"\x1b[1;5C", b"\x1b[1;3C", b"\x1bOc"];
const BACKSPACE: &[&[u8]] = &[b"\x7f", b"\x08"];
const WORD_CUT: &[&[u8]] = &[b"\x1b\x7f", b"\x1b\x08"];

fn word_back(line: &mut EditLine, n: u16, _: usize) -> Result<Outcome, Refusal> {
    line.move_to_prev_word(Word::Emacs, n)
}

fn word_on(line: &mut EditLine, n: u16, _: usize) -> Result<Outcome, Refusal> {
    line.move_to_next_word(At::AfterEnd, Word::Emacs, n)
}

fn delete(line: &mut EditLine, n: u16, _: usize) -> Result<Outcome, Refusal> {
    Ok(line.delete(n)?.map_or(Outcome::Nothing, |_| Outcome::Done))
}

/// What a key is bound to.
pub fn bound(key: &[u8]) -> Act {
    let mut rows = TABLE.iter().flat_map(|part| part.rows);
    rows.find(|row| row.bytes.contains(&key)).map_or(Act::Library, |row| row.act)
}

/// The table as rows of text.
pub fn help() -> Vec<String> {
    let width = TABLE.iter().flat_map(|part| part.rows).map(|row| row.names.len()).max().unwrap_or_default();
    let mut help = Vec::new();
    for part in &TABLE {
        help.push(part.title.to_owned());
        help.extend(part.rows.iter().map(|row| format!("  {:width$}  {}", row.names, row.about)));
    }
    help.push("ESC and digits in front of a key repeat it: ESC 3 Left.".to_owned());
    help
}

#[cfg(test)]
mod tests {
    use super::*;

    #[test]
    fn no_key_is_bound_twice() {
        let mut all: Vec<_> = TABLE.iter().flat_map(|part| part.rows).flat_map(|row| row.bytes).collect();
        let count = all.len();
        all.sort_unstable();
        all.dedup();
        assert_eq!(all.len(), count);
    }

    /// The keys that the terminal does not bind are the library's: it knows each that the table names.
    #[test]
    fn the_librarys_keys() {
        let keys = b"\x02 \x06 \x01 \x05 \x1bb \x1bf a \t \n \x1f \x14 \x1bt \x1bc \x1bl \x1bu \x0b \x15 \x17 \x1bd \x19 \x1by";
        for key in keys.split(|byte| *byte == b' ') {
            assert!(matches!(bound(key), Act::Library), "{key:?}");
            assert!(EditLine::new(Default::default()).unwrap().key(key).is_ok(), "{key:?}");
        }
    }
}
