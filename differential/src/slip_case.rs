//! A slip: the text and the page that are lent, and the comparison with what order 2 of document 02 says of them.
use crate::checks::{MAX_TEXT, is_text};
use crate::ffi::{self, ValueAnswer};
use crate::lent::Lent;
use crate::log_case::{raw, stale};
use crate::record_slips::LentSlip;
use crate::{record, slip_reading};

pub const NAME: &str = "tlf_text_slip";
pub const GIVES: &[u32] = &[0, 2, 4, 14];

/// The answer that is due, and the page that is left, whole.
pub struct Expected {
    pub answer: ValueAnswer,
    pub page: Vec<u8>,
}

/// What the library answered and left on the page, and what it should have.
pub struct Difference {
    pub got: ValueAnswer,
    pub page: Vec<u8>,
    /// The buffers that are not as they should be, each with the first place.
    pub wrong: Vec<(&'static str, isize)>,
    pub expected: Expected,
}

/// The slip of a text, or the number by which it is refused whatever the page: 2, a text over 4,096 bytes; 4, one that
/// is not UTF-8 or is outside the repertoire.
pub fn slip(text: &[u8]) -> Result<String, u32> {
    if text.len() > MAX_TEXT {
        return Err(2);
    }
    if !is_text(text) {
        return Err(4);
    }
    Ok(slip_reading::slip(std::str::from_utf8(text).expect("check 4")))
}

/// The slip at the front of the page, with its length; or a number, and the page as it was. 14: a slip longer than the
/// page.
fn expected(text: &[u8], page: &[u8]) -> Expected {
    let fitting = slip(text).and_then(|slip| if slip.len() > page.len() { Err(14) } else { Ok(slip) });
    match fitting {
        Ok(slip) => {
            let answer = ValueAnswer { number: 0, value: slip.len() };
            Expected { answer, page: [slip.as_bytes(), &page[slip.len()..]].concat() }
        }
        Err(number) => Expected { answer: ValueAnswer { number, value: 0 }, page: page.to_vec() },
    }
}

/// The number that both give, or how they differ: the whole answer counts, every byte of the page, and that no byte of
/// the text and no guard has changed.
pub fn compare(text: &[u8], page: usize) -> Result<u32, Difference> {
    let (mut text, mut page) = (Lent::new(text), Lent::new(&stale(page)));
    let expected = expected(text.bytes(), page.bytes());
    let (text_bytes, page_bytes) = (raw(&mut text), raw(&mut page));
    let got = unsafe { ffi::tlf_text_slip(text_bytes.0, text_bytes.1, page_bytes.0, page_bytes.1) };

    let places = [("text", text.changed()), ("page", page.differs(&expected.page))];
    let wrong: Vec<_> = places.into_iter().filter_map(|(name, place)| Some((name, place?))).collect();
    if got != expected.answer || !wrong.is_empty() {
        return Err(Difference { got, page: page.now().to_vec(), wrong, expected });
    }
    record::slip(LentSlip { text: text.bytes(), page: page.bytes() }, &expected);
    Ok(got.number)
}
