//! A recorded slip as a line: what it is lent, '>', and what it answers and leaves, as the head of its data file
//! (`record_heads.rs`) says.
use crate::checks::MAX_TEXT;
use crate::ffi::ValueAnswer;
use crate::record_lines::{LARGEST, hex, left, with_plain_behind};
use crate::slip_case::Expected;

/// What a slip is lent.
pub struct LentSlip<'a> {
    pub text: &'a [u8],
    pub page: &'a [u8],
}

impl LentSlip<'_> {
    /// Whether the text has the most bytes, one less or one more.
    pub fn is_at_a_limit(&self) -> bool {
        (MAX_TEXT - 1..=MAX_TEXT + 1).contains(&self.text.len())
    }

    /// Whether a program has room for the page.
    pub fn fits(&self) -> bool {
        self.page.len() <= LARGEST
    }

    /// The line of this slip.
    pub fn line(&self, name: &str, due: &Expected) -> String {
        let ValueAnswer { number, value } = due.answer;
        let page = with_plain_behind(self.page, 0);
        let slip = [&due.page[..value], &page[value..]].concat();
        let slip = left((number == 0).then_some(&slip[..]));
        format!("{name} {} {} > {slip} {number} {value}", hex(self.text), hex(&page))
    }
}
