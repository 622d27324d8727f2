//! A list of calls on one log, with what stands between them.
use crate::lists::{self, Play};
use crate::log_calls::{Args, ENTRIES, Entry};
use crate::log_case::{Case, Damage, Difference, compare};
use crate::log_model::Change;
use crate::tally;

#[derive(Clone)]
pub struct Call {
    pub row: usize,
    pub args: Args,
}

impl Call {
    pub fn entry(&self) -> &'static Entry {
        &ENTRIES[self.row]
    }
}

#[derive(Clone)]
pub enum Step {
    Call(Call),
    /// A call on a damaged copy of the log; the next step has the log as it was.
    Damaged(Vec<Damage>, Call),
    /// A record laid on top of the undo list, where there is room for it.
    Lay(Change<String>),
    /// Another group level.
    Level(usize),
    /// The seam between undo and redo list moved behind this many records.
    Seam(usize),
}

impl Play for Step {
    type Sizes = [usize; 2];
    type Case = Case;
    type Conditions = ();
    type Difference = Difference;

    /// An empty log.
    fn start([records, texts]: [usize; 2]) -> Case {
        Case::new(records, texts)
    }

    fn play(&self, case: &mut Case, (): &mut ()) -> Result<Option<u32>, Difference> {
        match self {
            Step::Call(call) => return compare(call.entry(), case, &call.args).map(Some),
            Step::Damaged(damages, call) => {
                return compare(call.entry(), &mut case.damaged(damages), &call.args).map(Some);
            }
            Step::Lay(change) => case.lay(change),
            Step::Level(level) => case.set_level(*level),
            Step::Seam(count) => case.move_seam(*count),
        }
        Ok(None)
    }

    fn tally_row(&self) -> Option<usize> {
        match self {
            Step::Call(call) | Step::Damaged(_, call) => Some(tally::LOGS + call.row),
            Step::Lay(_) | Step::Level(_) | Step::Seam(_) => None,
        }
    }
}

pub type Played = lists::Played<Step>;
