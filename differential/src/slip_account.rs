//! A slip, and a difference there, told to a reader.
use std::fmt::Write as _;

use crate::account::{by, shown, word};
use crate::ffi::ValueAnswer;
use crate::list_account::Tell;
use crate::slip_case::{Difference, NAME};
use crate::slip_lists::Step;

impl Tell for Step {
    fn told(&self) -> String {
        let text = shown(&self.text, usize::MAX);
        format!("{NAME} text {text} of {} bytes, page of {} bytes", self.text.len(), self.page)
    }

    fn input(&self, (): &()) -> String {
        format!("call       {}\n", self.told())
    }

    fn told_start([]: [usize; 0]) -> String {
        "the text, and a page without a space and without \\n".into()
    }

    fn answers(&self, difference: &Difference) -> String {
        let Difference { got, page, wrong, expected } = difference;
        let due = &expected.answer;
        let mut out = String::new();
        let _ = writeln!(out, "library    {}", answer(got));
        let _ = writeln!(out, "           page {}", shown(front(page, got), usize::MAX));
        for (buffer, place) in wrong.iter().filter(|_| got.number == due.number) {
            let _ = writeln!(out, "           and it left a wrong byte at place {place} of {buffer}, or around it");
        }
        let reader = if due.number == 0 { "order 2".into() } else { by(due.number) };
        let _ = writeln!(out, "expected   {} ({reader})", answer(due));
        let _ = match due.number {
            0 => writeln!(out, "           page {}", shown(front(&expected.page, due), usize::MAX)),
            _ => writeln!(out, "           and no byte of the page changes"),
        };
        out
    }
}

/// The part of a page that an answer says is the slip.
fn front<'a>(page: &'a [u8], answer: &ValueAnswer) -> &'a [u8] {
    &page[..answer.value.min(page.len())]
}

fn answer(answer: &ValueAnswer) -> String {
    let ValueAnswer { number, value } = answer;
    format!("{number} {}, slip of {value} bytes", word(*number))
}
