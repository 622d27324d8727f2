//! What can become smaller in a step on a text and a log.
use crate::conclusions::Conclusion;
use crate::edit_lists::{Difference, List, Played, Step};
use crate::line_calls::Args;
use crate::list_shrink::{AnyRow, Number, Row, Shrink};
use crate::undo::lists;

impl Shrink for Step {
    /// A new text, the buffer of a damaged one and the damages to the log, the text to put in, the counts of a
    /// conclusion.
    fn row(&mut self, which: usize) -> Option<AnyRow<'_>> {
        let rows: Vec<AnyRow> = match self {
            Step::Text(text, cursor) => vec![Box::new(WithPlaces { row: text, places: vec![cursor] })],
            Step::Damaged(faults, _) => {
                let places = vec![&mut faults.line.len, &mut faults.line.cursor];
                vec![Box::new(WithPlaces { row: &mut faults.buffer, places }), Box::new(&mut faults.log)]
            }
            Step::Call(call) => vec![Box::new(&mut call.args.buf)],
            Step::Conclude(Conclusion::ToTheEnd(counts)) => vec![Box::new(Counts(counts))],
            Step::Log(_) | Step::Grow(_) | Step::Conclude(_) => vec![],
        };
        rows.into_iter().nth(which)
    }

    fn numbers(&mut self) -> Vec<&mut dyn Number> {
        match self {
            Step::Call(call) | Step::Damaged(_, call) => {
                let Args { n, pos, prompt, size, start, end, amount, dedent, mark, .. } = &mut call.args;
                vec![n, pos, prompt, size, start, end, amount, dedent, mark]
            }
            Step::Conclude(Conclusion::ToTheEnd(counts)) => counts.iter_mut().map(|count| count as _).collect(),
            Step::Conclude(Conclusion::Back(n)) => vec![n],
            Step::Conclude(Conclusion::Sum(n, m)) => vec![n, m],
            Step::Log(_) | Step::Text(..) | Step::Grow(_) => vec![],
        }
    }

    /// The counts of a conclusion are from 1 on.
    fn least(&self) -> usize {
        matches!(self, Step::Conclude(_)).into()
    }

    fn dependent(list: &mut List) -> Option<AnyRow<'_>> {
        Some(Box::new(WithMarks(list)))
    }

    fn is_panic(difference: &Difference) -> bool {
        match difference {
            Difference::Edit(difference) => difference.expected.is_none(),
            Difference::Line(difference) => difference.expected.is_none(),
            Difference::Log(difference) => difference.expected.is_none(),
            Difference::Conclusion(_) => false,
        }
    }
}

/// A text with places in it: those behind a piece that is left out move with it.
pub struct WithPlaces<'a, R> {
    pub row: R,
    pub places: Vec<&'a mut usize>,
}

impl<R: Row> Row for WithPlaces<'_, R> {
    fn len(&self) -> usize {
        self.row.len()
    }

    fn leave_out(&mut self, from: usize, count: usize) -> Option<()> {
        self.row.leave_out(from, count)?;
        for place in &mut self.places {
            **place = if **place >= from + count { **place - count } else { from.min(**place) };
        }
        Some(())
    }
}

/// Counts, one of which has to stay.
struct Counts<'a>(&'a mut Vec<u16>);

impl Row for Counts<'_> {
    fn len(&self) -> usize {
        self.0.len()
    }

    fn leave_out(&mut self, from: usize, count: usize) -> Option<()> {
        if self.0.len() > count { self.0.leave_out(from, count) } else { None }
    }
}

/// Steps whose marks are lower by the records that those left out in front of them made.
struct WithMarks<'a>(&'a mut List);

impl Row for WithMarks<'_> {
    fn len(&self) -> usize {
        self.0.steps.len()
    }

    fn leave_out(&mut self, from: usize, count: usize) -> Option<()> {
        let made = records_after(self.0, from + count) as isize - records_after(self.0, from) as isize;
        self.0.steps.drain(from..from + count);
        for step in &mut self.0.steps[from..] {
            if let Step::Call(call) | Step::Damaged(_, call) = step {
                call.args.mark = call.args.mark.checked_add_signed(-made)?;
            }
        }
        Some(())
    }
}

/// The records of the undo list after so many steps.
fn records_after(list: &List, count: usize) -> usize {
    let mut played = Played::new(list.sizes);
    list.steps[..count].iter().for_each(|step| drop(played.step(step.clone())));
    lists::undo(played.case.log.rust()).len()
}
