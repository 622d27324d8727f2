//! A slip as a list of one step: a slip sees nothing of the one before.
use crate::lists::Play;
use crate::slip_case::{Difference, compare};
use crate::tally;

/// A text, and the length of the page.
#[derive(Clone)]
pub struct Step {
    pub text: Vec<u8>,
    pub page: usize,
}

impl Play for Step {
    type Sizes = [usize; 0];
    type Case = ();
    type Conditions = ();
    type Difference = Difference;

    fn start([]: [usize; 0]) {}

    fn play(&self, (): &mut (), (): &mut ()) -> Result<Option<u32>, Difference> {
        compare(&self.text, self.page).map(Some)
    }

    fn tally_row(&self) -> Option<usize> {
        Some(tally::SLIPS)
    }
}
