//! A smaller input that differs too.
use crate::line_calls::{Args, Case, Difference, Entry, compare};

/// An input on which library and expectation differ.
pub struct Differing {
    pub case: Case,
    pub cursor: usize,
    pub args: Args,
    pub difference: Difference,
}

impl Differing {
    pub fn new(case: &Case, cursor: usize, args: &Args, difference: Difference) -> Differing {
        let case = Case::new(case.lent.bytes(), case.len);
        Differing { case, cursor, args: args.clone(), difference }
    }

    /// Another input, if it differs too.
    fn of(entry: &Entry, buffer: &[u8], len: usize, cursor: usize, args: Args) -> Option<Differing> {
        let mut case = Case::new(buffer, len);
        let difference = compare(entry, &mut case, cursor, &args).err()?;
        Some(Differing { case, cursor, args, difference })
    }

    fn with_n(&self, entry: &Entry, n: u16) -> Option<Differing> {
        Differing::of(entry, self.case.lent.bytes(), self.case.len, self.cursor, Args { n, ..self.args.clone() })
    }

    /// The same without a piece of the buffer; places behind the piece move with it.
    fn without(&self, entry: &Entry, from: usize, count: usize) -> Option<Differing> {
        let moved = |place: usize| if place >= from + count { place - count } else { place.min(from) };
        let mut buffer = self.case.lent.bytes().to_vec();
        buffer.drain(from..from + count);
        let args = Args { pos: moved(self.args.pos), ..self.args.clone() };
        Differing::of(entry, &buffer, moved(self.case.len), moved(self.cursor), args)
    }
}

/// Lowers n and leaves out pieces of the buffer as long as the two still differ, until nothing can go. A panic of the
/// Rust is left as it was found.
pub fn smallest(entry: &Entry, found: Differing) -> Differing {
    let mut best = found;
    while best.difference.expected.is_some() {
        let size = best.case.lent.size();
        best = (0..best.args.n.min(5)).find_map(|n| best.with_n(entry, n)).unwrap_or(best);
        best = smaller(entry, best);
        if best.case.lent.size() == size {
            break;
        }
    }
    best
}

/// One round over all pieces, halved down to single bytes; those of a few bytes at every place.
fn smaller(entry: &Entry, found: Differing) -> Differing {
    let mut best = found;
    let mut count = best.case.lent.size().next_power_of_two();
    while count > 0 {
        let step = if count <= 4 { 1 } else { count };
        let mut from = 0;
        while from + count <= best.case.lent.size() {
            match best.without(entry, from, count) {
                Some(smaller) => best = smaller,
                None => from += step,
            }
        }
        count /= 2;
    }
    best
}
