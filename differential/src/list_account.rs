//! A difference in a list of calls told to a reader.
use std::fmt::{Debug, Write as _};

use crate::list_shrink::Differing;
use crate::lists::Play;

/// Steps of a longer list that are shown.
const STEPS: usize = 100;

/// A step that can be told.
pub trait Tell: Play {
    /// In words.
    fn told(&self) -> String;

    /// The call and what it is lent, before the damage that the step may do to it.
    fn input(&self, case: &Self::Case) -> String;

    /// Where a list starts.
    fn told_start(sizes: Self::Sizes) -> String;

    /// The two answers, where this is the step that differs.
    fn answers(&self, difference: &Self::Difference) -> String;
}

/// The list of calls, and the two answers to the last.
pub fn difference<S: Tell>(differing: &Differing<S>) -> String {
    let Differing { list, difference } = differing;
    let last = list.steps.last().expect("the step that differs");
    let steps = numbered(list.steps.iter().map(S::told));
    format!("buffers    {}\n{steps}{}", S::told_start(list.sizes), last.answers(difference))
}

/// The last of these steps, one to a line, with their numbers.
fn numbered(steps: impl Iterator<Item = String>) -> String {
    let steps = folded(steps);
    let hidden = steps.len().saturating_sub(STEPS);
    let mut out = String::new();
    let mut number = 0;
    for (i, (step, count)) in steps.iter().enumerate() {
        let (first, last) = (number + 1, number + count);
        let numbers = if first == last { first.to_string() } else { format!("{first} to {last}") };
        if i >= hidden {
            let _ = writeln!(out, "{numbers:<10} {step}");
        }
        number = last;
    }
    out
}

/// Each line with the number of times that it comes in a row.
pub fn folded(lines: impl Iterator<Item = String>) -> Vec<(String, usize)> {
    let mut all: Vec<(String, usize)> = Vec::new();
    for line in lines {
        match all.last_mut() {
            Some((last, count)) if *last == line => *count += 1,
            _ => all.push((line, 1)),
        }
    }
    all
}

/// A call with its arguments.
pub fn told_call<P: Copy + Debug>(name: &str, takes: &[P], value: impl Fn(P) -> String) -> String {
    let one = |&param: &P| format!(" {} {}", format!("{param:?}").to_lowercase(), value(param));
    format!("{name}{}", takes.iter().map(one).collect::<Vec<_>>().join(","))
}
