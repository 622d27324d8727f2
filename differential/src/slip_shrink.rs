//! What can become smaller in a slip.
use crate::list_shrink::{AnyRow, Number, Shrink};
use crate::slip_case::Difference;
use crate::slip_lists::Step;

impl Shrink for Step {
    fn row(&mut self, which: usize) -> Option<AnyRow<'_>> {
        (which == 0).then(|| Box::new(&mut self.text) as AnyRow)
    }

    fn numbers(&mut self) -> Vec<&mut dyn Number> {
        vec![&mut self.page]
    }

    /// The Rust is not asked.
    fn is_panic(_: &Difference) -> bool {
        false
    }
}
