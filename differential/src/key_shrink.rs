//! What can become smaller in a step of a list of keys.
use crate::edit_shrink::WithPlaces;
use crate::key_lists::{Difference, Step};
use crate::list_shrink::{AnyRow, Number, Shrink};
use crate::{edit_lists, ring_lists};

impl Shrink for Step {
    /// The key; the buffer of a damaged text, the damages to the log and to the ring.
    fn row(&mut self, which: usize) -> Option<AnyRow<'_>> {
        let rows: Vec<AnyRow> = match self {
            Step::Key(key) => vec![Box::new(key)],
            Step::Damaged(faults, ring, key) => {
                let places = vec![&mut faults.line.len, &mut faults.line.cursor];
                let buffer = WithPlaces { row: &mut faults.buffer, places };
                vec![Box::new(key), Box::new(buffer), Box::new(&mut faults.log), Box::new(ring)]
            }
            Step::Line(step) => return step.row(which),
            Step::Ring(step) => return step.row(which),
        };
        rows.into_iter().nth(which)
    }

    fn numbers(&mut self) -> Vec<&mut dyn Number> {
        match self {
            Step::Key(_) => vec![],
            Step::Damaged(faults, ring, _) => {
                let log = faults.log.iter_mut().map(|damage| damage.number() as &mut dyn Number);
                log.chain(ring.iter_mut().map(|damage| damage.number() as _)).collect()
            }
            Step::Line(step) => step.numbers(),
            Step::Ring(step) => step.numbers(),
        }
    }

    fn least(&self) -> usize {
        match self {
            Step::Line(step) => step.least(),
            _ => 0,
        }
    }

    fn is_panic(difference: &Difference) -> bool {
        match difference {
            Difference::Key(difference) => difference.expected.is_none(),
            Difference::Line(difference) => edit_lists::Step::is_panic(difference),
            Difference::Ring(difference) => ring_lists::Step::is_panic(difference),
        }
    }
}
