//! What a slip costs, of the longest texts: one of words, one that is a single word, one of newlines, whose slip is the
//! longest. The library alone.
use std::cell::RefCell;
use std::hint::black_box;

use crate::ffi::{self, ValueAnswer};
use crate::inputs::{ENGLISH, text};
use crate::sizes::TEXT;
use crate::tables::{figure, grouped, head, line};
use crate::timing::{Check, Figure, checks};

/// The bytes of a line without words: the most that a byte of text can come to.
const LINE: usize = 61;

/// A text, and a page that is long enough for any.
struct Lent {
    text: String,
    page: Vec<u8>,
}

impl Lent {
    fn new(text: String) -> Lent {
        Lent { page: vec![0; LINE * text.len()], text }
    }

    fn slip(&mut self) -> ValueAnswer {
        let text = black_box(&self.text);
        // SAFETY: two buffers, each with its length.
        unsafe { ffi::tlf_text_slip(text.as_ptr(), text.len(), self.page.as_mut_ptr(), self.page.len()) }
    }
}

fn lent() -> [(&'static str, Lent); 3] {
    let texts = [("words", text(ENGLISH, TEXT)), ("one word", "a".repeat(TEXT)), ("newlines", "\n".repeat(TEXT))];
    texts.map(|(name, text)| (name, Lent::new(text)))
}

/// For each text the call's figure.
pub fn measure() -> Vec<Figure> {
    let timed = |lent: Lent| {
        let lent = RefCell::new(lent);
        Check { call: Box::new(move || lent.borrow_mut().slip().number == 0), by: 1 }
    };
    checks(lent().map(|(_, lent)| timed(lent))).into()
}

pub fn print(figures: &[Figure]) {
    let columns = ["text", "its bytes", "bytes of the slip", "a call", "for each byte of both"];
    head("A slip, nanoseconds", &columns);
    for ((name, mut lent), call) in lent().into_iter().zip(figures) {
        let (read, written) = (lent.text.len(), lent.slip().value);
        let each = call.by((read + written) as f64);
        line(&[name.into(), grouped(read), grouped(written), figure(call), figure(&each)]);
    }
}
