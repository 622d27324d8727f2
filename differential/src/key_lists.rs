//! A list of keys on one text, log and ring, with what stands between them.
use crate::conditions::Conditions;
use crate::edit_lists::{self, Faults};
use crate::key_calls::{Does, KINDS};
use crate::key_case::{self, Case, compare};
use crate::key_reading::read;
use crate::lists::{self, Play};
use crate::ring_case::{self, Damage};
use crate::ring_lists;
use crate::tally;

#[derive(Clone)]
pub enum Step {
    Key(Vec<u8>),
    /// A key on a damaged copy of text, log and ring; the next step has them as they were.
    Damaged(Faults, Vec<Damage>, Vec<u8>),
    /// A step on text and log alone.
    Line(edit_lists::Step),
    /// A step on the ring alone.
    Ring(ring_lists::Step),
}

impl Play for Step {
    type Sizes = [usize; 5];
    type Case = Case;
    /// Whether the list is one of demand 3.
    type Conditions = Conditions;
    type Difference = Difference;

    /// An empty text, an empty log and a ring not yet made; the sizes are those of text, records, texts, slots and lens.
    fn start(sizes: [usize; 5]) -> Case {
        Case::new(sizes)
    }

    fn play(&self, case: &mut Case, conditions: &mut Conditions) -> Result<Option<u32>, Difference> {
        match self {
            Step::Key(key) => {
                let number = compare(case, key).map_err(Difference::Key)?;
                conditions.note_key(KINDS[read(key).row].does == Does::Undo);
                Ok(Some(number))
            }
            Step::Damaged(faults, ring, key) => {
                let line = case.line.damaged(&faults.buffer, faults.line, &faults.log);
                let mut copy = Case { line, ring: case.ring.damaged(ring) };
                compare(&mut copy, key).map(Some).map_err(Difference::Key)
            }
            Step::Line(step) => step.play(&mut case.line, conditions).map_err(Difference::Line),
            Step::Ring(step) => step.play(&mut case.ring, &mut ()).map_err(Difference::Ring),
        }
    }

    fn tally_row(&self) -> Option<usize> {
        match self {
            Step::Key(key) | Step::Damaged(_, _, key) => Some(tally::KEYS + read(key).row),
            Step::Line(step) => step.tally_row(),
            Step::Ring(step) => step.tally_row(),
        }
    }

    fn asks(&self) -> bool {
        match self {
            Step::Key(_) | Step::Damaged(..) => true,
            Step::Line(step) => step.asks(),
            Step::Ring(step) => step.asks(),
        }
    }
}

pub type Played = lists::Played<Step>;

pub enum Difference {
    Key(key_case::Difference),
    Line(edit_lists::Difference),
    Ring(ring_case::Difference),
}
