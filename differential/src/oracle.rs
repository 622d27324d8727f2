//! The Rust's side: rustyline's own `LineBuffer`, with `can_growth(true)`, and its `Changeset`.
use crate::ffi::{Log, Used};
use crate::keymap::{At, CharSearch, Movement, Word};
use crate::layout::{GraphemeClusterMode, Layout};
use crate::line_buffer::{DeleteListener, Direction, LineBuffer, NoListener, WordAction};
use crate::line_calls::Args;
use crate::listeners::Witness;
use crate::log_model::{Bytes, Change};
use crate::undo::{Changeset, lists};

/// What the Rust decides: the places of answer 0, or `None` for answer 1. The cursor stays in the line buffer.
pub type Outcome = Option<(usize, usize)>;

pub fn line_buffer(text: &str, cursor: usize) -> LineBuffer {
    let mut line = LineBuffer::with_capacity(crate::checks::MAX_TEXT).can_growth(true);
    line.update(text, cursor, &mut NoListener);
    line
}

/// The same of bytes that check 4 has passed.
pub fn line_of(text: &[u8], cursor: usize) -> LineBuffer {
    line_buffer(std::str::from_utf8(text).expect("check 4"), cursor)
}

/// The outcome of a call that answers no place.
pub fn done(yes: bool) -> Outcome {
    yes.then_some((0, 0))
}

pub fn word(code: u32) -> Word {
    [Word::Big, Word::Emacs, Word::Vi][code as usize]
}

pub fn at(code: u32) -> At {
    [At::Start, At::BeforeEnd, At::AfterEnd][code as usize]
}

pub fn action(code: u32) -> WordAction {
    [WordAction::Capitalize, WordAction::Lowercase, WordAction::Uppercase][code as usize]
}

pub fn character(ch: u32) -> char {
    char::from_u32(ch).expect("a character of the repertoire")
}

pub fn search(code: u32, ch: u32) -> CharSearch {
    let ch = character(ch);
    match code {
        0 => CharSearch::Forward(ch),
        1 => CharSearch::ForwardBefore(ch),
        2 => CharSearch::Backward(ch),
        3 => CharSearch::BackwardAfter(ch),
        _ => unreachable!("check 3"),
    }
}

pub fn movement(a: &Args) -> Movement {
    match a.mvt {
        0 => Movement::WholeLine,
        1 => Movement::BeginningOfLine,
        2 => Movement::EndOfLine,
        3 => Movement::BackwardWord(a.n, word(a.word)),
        4 => Movement::ForwardWord(a.n, at(a.at), word(a.word)),
        5 => Movement::ViCharSearch(a.n, search(a.search, a.ch)),
        6 => Movement::ViFirstPrint,
        7 => Movement::BackwardChar(a.n),
        8 => Movement::ForwardChar(a.n),
        9 => Movement::LineUp(a.n),
        10 => Movement::LineDown(a.n),
        11 => Movement::WholeBuffer,
        12 => Movement::BeginningOfBuffer,
        13 => Movement::EndOfBuffer,
        _ => unreachable!("check 3"),
    }
}

/// Where ViFirstPrint starts: the Rust's `next_word_pos(0, At::Start, Word::Big, 1)`.
pub fn first_print(line: &mut LineBuffer) -> Option<usize> {
    line.set_pos(0);
    line.move_to_next_word(At::Start, Word::Big, 1).then(|| line.pos())
}

/// The Rust's copy answers the text. Its places: one end is the cursor, save for the whole buffer and for lines.
pub fn copy(line: &LineBuffer, mvt: &Movement) -> Outcome {
    let text = line.copy(mvt)?;
    let cursor = line.pos();
    let (from, to) = match mvt {
        Movement::EndOfLine
        | Movement::ForwardWord(..)
        | Movement::ViCharSearch(_, CharSearch::Forward(_) | CharSearch::ForwardBefore(_))
        | Movement::ForwardChar(_)
        | Movement::EndOfBuffer => (cursor, cursor + text.len()),
        Movement::WholeLine
        | Movement::BeginningOfLine
        | Movement::BackwardWord(..)
        | Movement::ViCharSearch(_, CharSearch::Backward(_) | CharSearch::BackwardAfter(_))
        | Movement::ViFirstPrint
        | Movement::BackwardChar(_)
        | Movement::BeginningOfBuffer => (cursor - text.len(), cursor),
        Movement::WholeBuffer => (0, text.len()),
        Movement::LineUp(_) | Movement::LineDown(_) => killed(line, mvt)?,
    };
    assert_eq!(&line.as_str()[from..to], text, "the places are those of the text copied");
    Some((from, to))
}

/// The places between which the Rust's kill cuts: for lines the range that copy takes.
fn killed(line: &LineBuffer, mvt: &Movement) -> Outcome {
    let mut cut = Cut(None);
    line_buffer(line.as_str(), line.pos()).kill(mvt, &mut cut);
    cut.0
}

struct Cut(Outcome);

impl DeleteListener for Cut {
    fn delete(&mut self, from: usize, text: &str, _: Direction) {
        self.0 = Some((from, from + text.len()));
    }
}

/// Where the lines start that the Rust's indent touches with this movement: told by the spaces that it puts in front of
/// them, each a byte further on than the line before it was.
pub fn touched(text: &[u8], cursor: usize, a: &Args) -> Vec<usize> {
    let mut witness = Witness::default();
    line_of(text, cursor).indent(&movement(a), 1, false, &mut witness);
    witness.0.iter().enumerate().map(|(before, heard)| heard.call.args.idx - before).collect()
}

/// A line move: `go` is the Rust's, its layout in Unicode mode with this prompt column.
///
/// It measures the cursor's line up to the cursor. The width of U+0009 and \r differs between versions of the Unicode
/// crate, so document 01 has each count 1 and leaves such a move out of the comparison. Here the Rust then moves in a
/// stand-in, where each of them in the measured part is a letter: every place, every newline and every cluster of the
/// other lines are the same.
pub fn line_move(line: &mut LineBuffer, prompt: usize, go: impl Fn(&mut LineBuffer, &Layout) -> bool) -> Outcome {
    let mut layout = Layout::new(GraphemeClusterMode::Unicode);
    layout.prompt_size.col = u16::try_from(prompt).expect("check 7");
    let before = &line.as_str()[..line.pos()];
    let measured = before.rfind('\n').map_or(0, |newline| newline + 1);
    if !before[measured..].contains(['\t', '\r']) {
        return done(go(line, &layout));
    }
    let letters = before[measured..].replace(['\t', '\r'], "x");
    let text = [&before[..measured], &letters, &line.as_str()[line.pos()..]].concat();
    let mut stand_in = line_buffer(&text, line.pos());
    let yes = go(&mut stand_in, &layout);
    line.set_pos(stand_in.pos());
    done(yes)
}

/// The widths that the Rust's crate gives U+0009, \r and \n.
pub fn control_widths() -> [u16; 3] {
    ["\t", "\r", "\n"].map(|c| Layout::new(GraphemeClusterMode::Unicode).width(c))
}

/// The columns of a cluster.
pub fn columns(cluster: &str) -> usize {
    Layout::new(GraphemeClusterMode::Unicode).width(cluster).into()
}

/// The Rust's lists in bytes, the undo list in front, and the state of the log that they are.
pub fn laid_out(changes: &Changeset) -> (Log, Bytes) {
    let mut bytes = Bytes::default();
    lists::undo(changes).for_each(|change| bytes.push(&change));
    let undo = bytes.used();
    lists::redo(changes).for_each(|change| bytes.push(&change));
    let both = bytes.used();
    let redo = Used { records: both.records - undo.records, texts: both.texts - undo.texts };
    (Log { undo, redo, level: lists::level(changes) }, bytes)
}

/// The Rust's last_insert answers the text. It is the last of the undo list's texts: Ends, which it passes, have none.
pub fn last_insert(changes: &Changeset) -> Outcome {
    let text = changes.last_insert()?;
    let (log, bytes) = laid_out(changes);
    let to = log.undo.texts;
    let from = to - text.len();
    assert_eq!(&bytes.texts[from..to], text.as_bytes(), "the places are those of the text");
    Some((from, to))
}

/// Redoing n is n calls of the Rust's. On an empty list each gives nothing.
pub fn redo(line: &mut LineBuffer, changes: &mut Changeset, n: u16) -> bool {
    let mut redone = false;
    for _ in 0..n {
        if lists::redo(changes).len() == 0 {
            break;
        }
        redone |= changes.redo(line);
    }
    redone
}

/// Document 01's cancel, which the Rust has not: its undo of the records from the mark on, each of them a unit since no
/// End is among them. Then they and the redo list are dropped, and the level is lowered by the Begins among them.
pub fn cancel(line: &mut LineBuffer, changes: &mut Changeset, mark: usize) -> bool {
    let group: Vec<Change<&str>> = lists::undo(changes).skip(mark).collect();
    let opens = matches!(group.first(), Some(Change::Begin));
    if !opens || group.iter().any(|change| matches!(change, Change::End)) {
        return false;
    }
    let begins = group.iter().filter(|change| matches!(change, Change::Begin)).count();
    let count = u16::try_from(group.len()).expect("check 2");
    changes.undo(line, count);
    lists::drop_redo(changes);
    lists::set_level(changes, lists::level(changes).saturating_sub(begins));
    true
}
