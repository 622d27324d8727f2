//! A smaller list of calls that ends in a difference too.
use std::time::{Duration, Instant};

use crate::lists::{List, Play, Played};

/// A row of pieces that can be left out.
pub trait Row {
    fn len(&self) -> usize;

    /// `None` where these pieces have to stay.
    fn leave_out(&mut self, from: usize, count: usize) -> Option<()>;
}

impl<T> Row for &mut Vec<T> {
    fn len(&self) -> usize {
        Vec::len(self)
    }

    fn leave_out(&mut self, from: usize, count: usize) -> Option<()> {
        self.drain(from..from + count);
        Some(())
    }
}

impl Row for &mut String {
    fn len(&self) -> usize {
        String::len(self)
    }

    fn leave_out(&mut self, from: usize, count: usize) -> Option<()> {
        self.get(from..from + count)?;
        self.replace_range(from..from + count, "");
        Some(())
    }
}

pub type AnyRow<'a> = Box<dyn Row + 'a>;

/// A number that can be lowered.
pub trait Number {
    fn get(&self) -> usize;
    fn set(&mut self, lower: usize);
}

impl<T: Copy + TryFrom<usize> + TryInto<usize>> Number for T {
    fn get(&self) -> usize {
        (*self).try_into().ok().expect("no more than 64 bits")
    }

    fn set(&mut self, lower: usize) {
        *self = lower.try_into().ok().expect("no more than it was");
    }
}

/// A step that can become smaller.
pub trait Shrink: Play {
    /// One of its rows, as its damages or a text; `None` behind the last.
    fn row(&mut self, which: usize) -> Option<AnyRow<'_>>;

    fn numbers(&mut self) -> Vec<&mut dyn Number>;

    /// The least that its numbers can be.
    fn least(&self) -> usize {
        0
    }

    /// The list as a row of steps that change with those left out in front of them, if they do.
    fn dependent(_list: &mut List<Self>) -> Option<AnyRow<'_>> {
        None
    }

    /// Whether the Rust panics there and no check foresaw it.
    fn is_panic(difference: &Self::Difference) -> bool;
}

impl<S: Shrink> List<S> {
    fn row(&mut self, step: usize, which: usize) -> Option<AnyRow<'_>> {
        self.steps.get_mut(step)?.row(which)
    }

    fn number(&mut self, step: usize, which: usize) -> Option<&mut dyn Number> {
        self.steps.get_mut(step)?.numbers().into_iter().nth(which)
    }
}

/// A list whose last step differs.
pub struct Differing<S: Play> {
    pub list: List<S>,
    pub difference: S::Difference,
}

/// Long lists take long to try.
const PATIENCE: Duration = Duration::from_secs(5);

/// Leaves out steps and damages, shortens texts and lowers numbers and sizes as long as some step still differs, until
/// nothing can go. A panic of the Rust is left as it was found.
pub fn smallest<S: Shrink>(found: Differing<S>) -> Differing<S> {
    let mut search = Search { best: found, until: Instant::now() + PATIENCE };
    while search.round() {}
    search.best
}

struct Search<S: Play> {
    best: Differing<S>,
    until: Instant,
}

impl<S: Shrink> Search<S> {
    /// Everything once: whether anything became smaller.
    fn round(&mut self) -> bool {
        let mut smaller = self.fewer(|list| Some(Box::new(&mut list.steps)));
        smaller |= self.fewer(S::dependent);
        for i in (0..self.best.list.steps.len()).rev() {
            // Steps behind a new first difference are gone by now.
            smaller |= self.smaller_step(i);
        }
        for which in 0..self.best.list.sizes.as_mut().len() {
            smaller |= self.lower(0, |list| Some(&mut list.sizes.as_mut()[which]));
        }
        smaller
    }

    fn smaller_step(&mut self, i: usize) -> bool {
        let mut smaller = false;
        let mut which = 0;
        while self.best.list.row(i, which).is_some() {
            smaller |= self.fewer(|list| list.row(i, which));
            which += 1;
        }
        let least = self.best.list.steps.get(i).map_or(0, S::least);
        let mut which = 0;
        while self.best.list.number(i, which).is_some() {
            smaller |= self.lower(least, |list| list.number(i, which));
            which += 1;
        }
        smaller
    }

    /// Takes the list with something changed, if the change applies and there is still a difference.
    fn try_with(&mut self, change: impl FnOnce(&mut List<S>) -> Option<()>) -> bool {
        if S::is_panic(&self.best.difference) || Instant::now() > self.until {
            return false;
        }
        let mut list = self.best.list.clone();
        let Some(found) = change(&mut list).and_then(|()| first_difference(list)) else { return false };
        self.best = found;
        true
    }

    /// Leaves out pieces of a row, halved down to single ones.
    fn fewer(&mut self, row: impl Fn(&mut List<S>) -> Option<AnyRow<'_>>) -> bool {
        let mut smaller = false;
        let mut count = row(&mut self.best.list).map_or(0, |row| row.len()).next_power_of_two();
        while count > 0 {
            let step = if count <= 4 { 1 } else { count };
            let mut from = 0;
            while row(&mut self.best.list).is_some_and(|row| from + count <= row.len()) {
                match self.try_with(|list| row(list)?.leave_out(from, count)) {
                    true => smaller = true,
                    false => from += step,
                }
            }
            count /= 2;
        }
        smaller
    }

    /// Lowers a number, down to `least`.
    fn lower(&mut self, least: usize, number: impl Fn(&mut List<S>) -> Option<&mut dyn Number>) -> bool {
        let mut smaller = false;
        while let Some(now) = number(&mut self.best.list).map(|number| number.get()) {
            let lower = [least, now / 2, now.saturating_sub(1)];
            let fits = |value| (least..now).contains(&value);
            let set = |list: &mut List<S>, value| number(list).map(|number| number.set(value));
            if !lower.into_iter().any(|value| fits(value) && self.try_with(|list| set(list, value))) {
                break;
            }
            smaller = true;
        }
        smaller
    }
}

/// The list up to its first difference.
fn first_difference<S: Play>(list: List<S>) -> Option<Differing<S>> {
    let mut played = Played::new(list.sizes);
    let difference = list.steps.into_iter().find_map(|step| played.step(step).err())?;
    Some(Differing { list: played.list, difference })
}
