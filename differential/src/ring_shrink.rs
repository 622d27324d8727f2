//! What can become smaller in a step on a kill ring.
use crate::list_shrink::{AnyRow, Number, Shrink};
use crate::ring_calls::Args;
use crate::ring_case::{Damage, Difference};
use crate::ring_lists::Step;

impl Shrink for Step {
    /// The damages, the argument's text, the texts of the damages.
    fn row(&mut self, which: usize) -> Option<AnyRow<'_>> {
        match (which, self) {
            (0, Step::Damaged(damages, _) | Step::Set(damages)) => Some(Box::new(damages)),
            (_, Step::Call(call)) => texts(Some(&mut call.args), &mut []).nth(which),
            (_, Step::Damaged(damages, call)) => texts(Some(&mut call.args), damages).nth(which - 1),
            (_, Step::Set(damages)) => texts(None, damages).nth(which - 1),
        }
    }

    /// The size among the arguments, then the numbers of the damages.
    fn numbers(&mut self) -> Vec<&mut dyn Number> {
        let (args, damages) = match self {
            Step::Call(call) => (Some(&mut call.args), &mut [][..]),
            Step::Damaged(damages, call) => (Some(&mut call.args), &mut damages[..]),
            Step::Set(damages) => (None, &mut damages[..]),
        };
        let size = args.map(|args| &mut args.size as &mut dyn Number);
        size.into_iter().chain(damages.iter_mut().map(|damage| damage.number() as _)).collect()
    }

    fn is_panic(difference: &Difference) -> bool {
        difference.expected.is_none()
    }
}

/// The argument's text, then those of the damages.
fn texts<'a>(args: Option<&'a mut Args>, damages: &'a mut [Damage]) -> impl Iterator<Item = AnyRow<'a>> {
    let of_damages = damages.iter_mut().filter_map(|damage| match damage {
        Damage::Text(_, text) => Some(text),
        _ => None,
    });
    args.map(|args| &mut args.text).into_iter().chain(of_damages).map(|text| Box::new(text) as AnyRow)
}
