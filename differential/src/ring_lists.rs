//! A list of calls on one kill ring, with what stands between them.
use crate::lists::{self, Play};
use crate::ring_calls::{Args, ENTRIES, Entry, row};
use crate::ring_case::{Case, Damage, Difference, compare};
use crate::tally;

#[derive(Clone)]
pub struct Call {
    pub row: usize,
    pub args: Args,
}

impl Call {
    pub fn new(name: &str, args: Args) -> Call {
        Call { row: row(name), args }
    }

    pub fn entry(&self) -> &'static Entry {
        &ENTRIES[self.row]
    }
}

#[derive(Clone)]
pub enum Step {
    Call(Call),
    /// A call on a damaged copy of the ring; the next step has the ring as it was.
    Damaged(Vec<Damage>, Call),
    /// The ring set to something else, fit or unfit.
    Set(Vec<Damage>),
}

impl Play for Step {
    type Sizes = [usize; 2];
    type Case = Case;
    type Conditions = ();
    type Difference = Difference;

    /// A record that no call has left.
    fn start([slots, lens]: [usize; 2]) -> Case {
        Case::new(slots, lens)
    }

    fn play(&self, case: &mut Case, (): &mut ()) -> Result<Option<u32>, Difference> {
        match self {
            Step::Call(call) => compare(call.entry(), case, &call.args).map(Some),
            Step::Damaged(damages, call) => compare(call.entry(), &mut case.damaged(damages), &call.args).map(Some),
            Step::Set(damages) => {
                *case = case.damaged(damages);
                Ok(None)
            }
        }
    }

    fn tally_row(&self) -> Option<usize> {
        match self {
            Step::Call(call) | Step::Damaged(_, call) => Some(tally::RINGS + call.row),
            Step::Set(_) => None,
        }
    }
}

pub type Played = lists::Played<Step>;
