//! Plays lists of calls, counts them, and tells of the first difference.
use crate::list_account::{self, Tell};
use crate::list_shrink::{Differing, Shrink, smallest};
use crate::lists::Played;
use crate::tally::Tally;

pub struct Runner<'a> {
    tally: &'a mut Tally,
    /// What the comparisons are of.
    of: &'static str,
    /// The comparisons so far.
    pub done: u64,
    /// Tell each input before its call.
    trace: bool,
}

impl Runner<'_> {
    pub fn new<'a>(tally: &'a mut Tally, of: &'static str, trace: bool) -> Runner<'a> {
        Runner { tally, of, done: 0, trace }
    }

    /// One step; for a call the number that it gives.
    pub fn step<S: Shrink + Tell>(&mut self, played: &mut Played<S>, step: S) -> Result<Option<u32>, String> {
        let row = step.tally_row();
        self.done += u64::from(row.is_some());
        if self.trace && step.asks() {
            println!("{}", step.input(&played.case));
        }
        match played.step(step) {
            Ok(number) => {
                row.zip(number).into_iter().for_each(|(row, number)| self.tally.note(row, number));
                Ok(number)
            }
            Err(difference) => Err(self.account(Differing { list: played.list.clone(), difference })),
        }
    }

    fn account<S: Shrink + Tell>(&self, found: Differing<S>) -> String {
        let (done, of, small) = (self.done, self.of, smallest(found));
        format!("difference in comparison {done} of {of}, made smaller\n{}", list_account::difference(&small))
    }

    /// A list of a few steps from the start, in buffers of these sizes.
    pub fn list<S: Shrink + Tell>(&mut self, sizes: S::Sizes, steps: &[S]) -> Result<Played<S>, String> {
        let mut played = Played::new(sizes);
        for step in steps {
            self.step(&mut played, step.clone())?;
        }
        Ok(played)
    }

    /// So many steps on, each drawn from what the last has left, or as far as `limit` comparisons reach.
    pub fn go_on<S: Shrink + Tell>(
        &mut self,
        played: &mut Played<S>,
        count: usize,
        limit: u64,
        mut drawn: impl FnMut(&S::Case) -> S,
    ) -> Result<(), String> {
        for _ in 0..count {
            if self.done >= limit {
                break;
            }
            let step = drawn(&played.case);
            self.step(played, step)?;
        }
        Ok(())
    }
}
