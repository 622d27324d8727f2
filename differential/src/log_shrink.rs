//! What can become smaller in a step on a log.
use crate::list_shrink::{AnyRow, Number, Shrink};
use crate::log_calls::Args;
use crate::log_case::{Damage, Difference};
use crate::log_lists::{Call, Step};
use crate::log_model::Change;

impl Shrink for Step {
    fn row(&mut self, which: usize) -> Option<AnyRow<'_>> {
        let rows: Vec<AnyRow> = match self {
            Step::Call(Call { args, .. }) => {
                vec![Box::new(&mut args.buf), Box::new(&mut args.old), Box::new(&mut args.new)]
            }
            Step::Damaged(damages, Call { args, .. }) => {
                vec![Box::new(damages), Box::new(&mut args.buf), Box::new(&mut args.old), Box::new(&mut args.new)]
            }
            Step::Lay(Change::Insert(_, text) | Change::Delete(_, text)) => vec![Box::new(text)],
            Step::Lay(Change::Replace(_, old, new)) => vec![Box::new(old), Box::new(new)],
            Step::Lay(Change::Begin | Change::End) | Step::Level(_) | Step::Seam(_) => vec![],
        };
        rows.into_iter().nth(which)
    }

    fn numbers(&mut self) -> Vec<&mut dyn Number> {
        match self {
            Step::Call(call) => numbers(&mut call.args, &mut []),
            Step::Damaged(damages, call) => numbers(&mut call.args, damages),
            Step::Lay(Change::Insert(place, _) | Change::Delete(place, _) | Change::Replace(place, ..)) => vec![place],
            Step::Level(number) | Step::Seam(number) => vec![number],
            Step::Lay(Change::Begin | Change::End) => vec![],
        }
    }

    fn is_panic(difference: &Difference) -> bool {
        difference.expected.is_none()
    }
}

/// The arguments' numbers, then those of the damages.
fn numbers<'a>(args: &'a mut Args, damages: &'a mut [Damage]) -> Vec<&'a mut dyn Number> {
    let own: [&mut dyn Number; 2] = [&mut args.idx, &mut args.len];
    own.into_iter().chain(damages.iter_mut().map(|damage| damage.number() as _)).collect()
}
