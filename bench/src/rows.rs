//! The rows of the tables against rustyline: what is called, on what, at which sizes.
use crate::batches::Batch::{self, *};
use crate::inputs::full;
use crate::scenes::Place::*;
use crate::scenes::Scene::{self, *};

pub struct Row {
    pub call: &'static str,
    /// What the sizes count.
    pub of: &'static str,
    /// A quarter, a half, all.
    pub sizes: [usize; 3],
    /// Rows of the first table: what is said of the size, and the size.
    pub heads: Vec<(&'static str, usize)>,
    pub scene: Scene,
    pub batch: Batch,
    /// Has rustyline nothing of the kind?
    pub alone: bool,
}

impl Row {
    fn new(call: &'static str, scene: Scene, batch: Batch, of: &'static str, sizes: [usize; 3]) -> Row {
        Row { call, of, sizes, heads: Vec::new(), scene, batch, alone: false }
    }

    fn head(mut self, say: &'static str, size: usize) -> Row {
        self.heads.push((say, size));
        self
    }

    fn alone(mut self) -> Row {
        self.alone = true;
        self
    }

    /// The sizes that are measured, for either table.
    pub fn all_sizes(&self) -> Vec<usize> {
        let mut sizes: Vec<usize> = self.heads.iter().map(|(_, size)| *size).chain(self.sizes).collect();
        sizes.sort();
        sizes.dedup();
        sizes
    }
}

/// More than any text has of anything.
const ALL: u16 = u16::MAX;

const BYTES: &str = "bytes of text";
const TEXT: [usize; 3] = [1_024, 2_048, 4_096];
/// Texts to which up to 64 bytes are added.
const ROOM: [usize; 3] = [1_008, 2_016, 4_032];
const LOG: &str = "bytes of records";
const UNITS: &str = "units";
const UNIT_SIZES: [usize; 3] = [250, 500, 1_000];
const LINES: &str = "lines";
const LINE_SIZES: [usize; 3] = [100, 200, 400];

/// What a person does: the first table, and the beginning of the second.
fn first() -> Vec<Row> {
    let log = [8_192, 16_384, full()];
    let (lines, line_sizes) = ("lines of 25 bytes", [40, 80, 160]);
    let (slots, slot_sizes) = ("bytes in each of 16 slots", [1_024, 2_048, 4_096]);
    let (text, text_and_log) = ("text 1,000", "text 1,000, log empty");
    vec![
        Row::new("type a character at the end", English(End), Type, BYTES, ROOM).head(text_and_log, 1_000),
        Row::new("type a character at the end", Logged, Type, LOG, log)
            .head("text 1,000, log half full", log[1])
            .head("text 1,000, log full", log[2]),
        Row::new("type a character at the end, with accents", Mixed(End), Type, BYTES, ROOM).head(text_and_log, 1_000),
        Row::new("type a character in the middle", English(Middle), Type, BYTES, ROOM).head(text_and_log, 1_000),
        Row::new("a cluster step: move_forward 1", English(Start), Forward(64, 1), BYTES, TEXT).head(text, 1_000),
        Row::new("a cluster step back: move_backward 1", English(End), Backward(64, 1), BYTES, TEXT).head(text, 1_000),
        Row::new("a word back: move_to_prev_word 1", English(End), WordBack(64, 1), BYTES, TEXT).head(text, 1_000),
        Row::new("a line up: move_to_line_up 1", Lines, LineUp(39, 1), lines, line_sizes).head("40 lines", 40),
        Row::new("copy of a line", Lines, CopyUp(64, 0), lines, line_sizes).head("40 lines", 40),
        Row::new("a word in upper case: edit_word", English(Start), UpperWord(32), BYTES, TEXT)
            .head(text_and_log, 1_000),
        Row::new("kill a word and undo it", English(End), KillWordAndUndo(32), BYTES, TEXT).head(text_and_log, 1_000),
        Row::new("kill a word and undo it", Logged, KillWordAndUndo(32), LOG, log).head("text 1,000, log full", log[2]),
        Row::new("begin, type a character, end", English(End), Batch::Group(8), BYTES, ROOM).head(text_and_log, 1_000),
        Row::new("undo 1, one unit after the other", Units, UndoEach, UNITS, UNIT_SIZES).head("1,000 units", 1_000),
        Row::new("undo of all units in one call", Units, UndoAll, UNITS, UNIT_SIZES).head("1,000 units", 1_000),
        Row::new("the check of a log: insert_str of no text", Logged, InsertNothing(32), LOG, log)
            .head("log full", log[2]),
        Row::new("last_insert", LoggedTyped, LastInsert(32), LOG, log).head("log full", log[2]),
        Row::new("ring: reset and kill of a slot's text", Ring, RingKill(64), slots, slot_sizes)
            .head("16 slots of 60 bytes", 60),
        Row::new("ring: yank and yank_pop", Ring, RingYank(256), slots, slot_sizes).head("16 slots of 60 bytes", 60),
    ]
}

/// Where a call does something again and again: large repeat counts, many lines, many marks, many records.
fn more() -> Vec<Row> {
    let marks = "bytes, a letter and marks";
    let newlines = "newlines";
    let units_and_text = "units, 3 bytes of text each";
    vec![
        Row::new("move_forward 65,535", English(Start), Forward(1, ALL), BYTES, TEXT),
        Row::new("move_backward 65,535", English(End), Backward(1, ALL), BYTES, TEXT),
        Row::new("move_to_prev_word 65,535", English(End), WordBack(1, ALL), BYTES, TEXT),
        Row::new("move_to_next_word 65,535", English(Start), WordOn(1, ALL), BYTES, TEXT),
        Row::new("move_to_prev_word 65,535, accents", Mixed(End), WordBack(1, ALL), BYTES, TEXT),
        Row::new("move_to 65,535", Word(Start), MoveTo(1, ALL), BYTES, TEXT),
        Row::new("is_end_of_input, spaces alone", Spaces, EndOfInput(8), BYTES, TEXT),
        Row::new("move_to_line_up 65,535", Newlines(End), LineUp(1, ALL), newlines, TEXT),
        Row::new("move_to_line_down 65,535", Newlines(Start), LineDown(1, ALL), newlines, TEXT),
        Row::new("copy of 65,535 lines up", Newlines(End), CopyUp(1, ALL), newlines, TEXT),
        Row::new("move_forward 1", Marks(Start), Forward(1, 1), marks, TEXT),
        Row::new("move_backward 1", Marks(End), Backward(1, 1), marks, TEXT),
        Row::new("move_to_prev_word 1", Marks(End), WordBack(1, 1), marks, TEXT),
        Row::new("move_forward 1 from among the marks", Marks(Middle), Forward(1, 1), marks, TEXT),
        Row::new("type a character at the end", Marks(End), Type, marks, ROOM),
        Row::new("delete 1", Marks(Start), Delete, marks, TEXT),
        Row::new("backspace 1", Marks(End), Backspace, marks, TEXT),
        Row::new("delete_prev_word 1", Marks(End), KillWord, marks, TEXT),
        Row::new("transpose_chars", English(End), TransposeChars(8), BYTES, ROOM),
        Row::new("transpose_words 1", English(Middle), TransposeWords(8, 1), BYTES, ROOM),
        Row::new("transpose_words 65,535", English(Start), TransposeWords(1, ALL), BYTES, ROOM),
        Row::new("edit_word to upper case, one word", Word(Start), UpperWord(1), BYTES, TEXT),
        Row::new("kill_buffer", English(Start), KillBuffer, BYTES, TEXT),
        Row::new("update", English(End), Update, BYTES, TEXT),
        Row::new("replace all", English(End), Replace, BYTES, TEXT),
        Row::new("yank n of one letter", Empty, YankMany, "n", TEXT),
        Row::new("indent 1, log empty", IndentedLines, Indent, LINES, LINE_SIZES),
        Row::new("dedent 1, log empty", IndentedLines, Dedent, LINES, LINE_SIZES),
        Row::new("indent 1, a log of 71 bytes of records a line", LoggedLines, Indent, LINES, LINE_SIZES),
        Row::new("dedent 1, a log of 71 bytes of records a line", LoggedLines, Dedent, LINES, LINE_SIZES),
        Row::new("indent 1, lines of one newline", Newlines(Start), Indent, newlines, [512, 1_024, 2_047]),
        Row::new("dedent 1, lines of one space", SpacedLines, Dedent, LINES, [512, 1_024, 2_047]),
        Row::new("undo of all units in one call, at the start", UnitsAtStart, UndoAll, UNITS, UNIT_SIZES),
        Row::new("undo of all units in one call, at both ends of 3,000", UnitsAtEndsOf3000, UndoAll, UNITS, UNIT_SIZES),
        Row::new("undo of 250 units in one call, at both ends", UnitsAtEndsOfText, UndoAll, BYTES, [960, 1_920, 3_840]),
        Row::new("undo of all units in one call, at both ends", UnitsAtBothEnds, UndoAll, units_and_text, UNIT_SIZES),
        Row::new("undo of all units in one call, anywhere", UnitsAnywhere, UndoAll, units_and_text, UNIT_SIZES),
        Row::new("cancel of a group of words", Scene::Group, Cancel, "words", UNIT_SIZES).alone(),
    ]
}

/// All rows, or those of the first table.
pub fn rows(all: bool) -> Vec<Row> {
    let mut rows = first();
    if all {
        rows.extend(more());
    }
    rows
}
