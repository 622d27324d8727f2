//! A list of calls on one text, cursor and log, with what stands between them.
use crate::conclusions::{self, Conclusion};
use crate::conditions::Conditions;
use crate::edit_calls;
use crate::edit_case::{self, Case};
use crate::ffi::Line;
use crate::line_calls::{self, Args, Param, uses};
use crate::lists::{self, Play};
use crate::log_case::{self, Damage};
use crate::log_lists;
use crate::log_model::Change;
use crate::tally;
use crate::undo_calls;
use crate::undo_case;

/// The tables of the calls that are lent a text: those that do not write, those that write to text and log, and undo,
/// redo and cancel.
#[derive(Clone, Copy, PartialEq, Eq)]
pub enum Table {
    Lines,
    Edits,
    Undos,
}

/// A call of a table, by its row there.
#[derive(Clone)]
pub struct Call {
    pub table: Table,
    pub row: usize,
    pub args: Args,
}

impl Call {
    pub fn line(row: usize, args: Args) -> Call {
        Call { table: Table::Lines, row, args }
    }

    pub fn edit(row: usize, args: Args) -> Call {
        Call { table: Table::Edits, row, args }
    }

    pub fn undo(row: usize, args: Args) -> Call {
        Call { table: Table::Undos, row, args }
    }

    pub fn name(&self) -> &'static str {
        match self.table {
            Table::Lines => line_calls::ENTRIES[self.row].name,
            Table::Edits => edit_calls::ENTRIES[self.row].name,
            Table::Undos => undo_calls::ENTRIES[self.row].name,
        }
    }

    /// The parameters that the call uses with its arguments.
    pub fn uses(&self) -> Vec<Param> {
        let takes = match self.table {
            Table::Lines => line_calls::ENTRIES[self.row].takes,
            Table::Edits => edit_calls::ENTRIES[self.row].takes,
            Table::Undos => undo_calls::ENTRIES[self.row].takes,
        };
        uses(takes, &self.args)
    }

    fn tally_row(&self) -> usize {
        match self.table {
            Table::Lines => self.row,
            Table::Edits => tally::EDITS + self.row,
            Table::Undos => tally::UNDOS + self.row,
        }
    }

    /// The number that library and Rust give.
    fn play(&self, case: &mut Case) -> Result<u32, Difference> {
        let args = &self.args;
        match self.table {
            Table::Lines => case.go(&line_calls::ENTRIES[self.row], args).map_err(Difference::Line),
            Table::Edits => edit_case::compare(&edit_calls::ENTRIES[self.row], case, args).map_err(Difference::Edit),
            Table::Undos => undo_case::compare(&undo_calls::ENTRIES[self.row], case, args).map_err(Difference::Edit),
        }
    }
}

/// Another text in a buffer of its own, and damages to the log.
#[derive(Clone)]
pub struct Faults {
    pub buffer: Vec<u8>,
    pub line: Line,
    pub log: Vec<Damage>,
}

#[derive(Clone)]
pub enum Step {
    Call(Call),
    /// A call on a damaged copy; the next step has text and log as they were.
    Damaged(Faults, Call),
    /// A step of the log alone.
    Log(log_lists::Step),
    /// Another text and its cursor, where there is room for it.
    Text(String, usize),
    /// Larger buffers for text, records and texts: each of at least this size.
    Grow([usize; 3]),
    /// A conclusion of demand 3, on a copy, where its conditions hold.
    Conclude(Conclusion),
}

impl Step {
    pub fn lay(change: Change<String>) -> Step {
        Step::Log(log_lists::Step::Lay(change))
    }

    pub fn seam(count: usize) -> Step {
        Step::Log(log_lists::Step::Seam(count))
    }
}

impl Play for Step {
    type Sizes = [usize; 3];
    type Case = Case;
    /// Whether the list is one of demand 3.
    type Conditions = Conditions;
    type Difference = Difference;

    /// An empty text and an empty log; the sizes are those of text, records and texts.
    fn start(sizes: [usize; 3]) -> Case {
        Case::new(sizes)
    }

    fn play(&self, case: &mut Case, conditions: &mut Conditions) -> Result<Option<u32>, Difference> {
        let mut number = None;
        match self {
            Step::Call(call) => number = Some(call.play(case)?),
            Step::Damaged(faults, call) => {
                number = Some(call.play(&mut case.damaged(&faults.buffer, faults.line, &faults.log))?);
            }
            Step::Log(step) => number = step.play(&mut case.log, &mut ()).map_err(Difference::Log)?,
            Step::Text(text, cursor) => case.lay(text, *cursor),
            Step::Grow(sizes) => case.grow(*sizes),
            Step::Conclude(conclusion) => {
                if let Some(first) = conditions.first_text() {
                    conclusion.check(first, case).map_err(Difference::Conclusion)?;
                }
            }
        }
        conditions.note(self, number, case);
        Ok(number)
    }

    fn tally_row(&self) -> Option<usize> {
        match self {
            Step::Call(call) | Step::Damaged(_, call) => Some(call.tally_row()),
            Step::Log(step) => step.tally_row(),
            Step::Text(..) | Step::Grow(_) | Step::Conclude(_) => None,
        }
    }

    fn asks(&self) -> bool {
        self.tally_row().is_some() || matches!(self, Step::Conclude(_))
    }
}

pub type List = lists::List<Step>;
pub type Played = lists::Played<Step>;

pub enum Difference {
    Edit(edit_case::Difference),
    Line(line_calls::Difference),
    Log(log_case::Difference),
    Conclusion(conclusions::Failure),
}
