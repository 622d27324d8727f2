//! Slips: a text laid out in lines of 60 columns, by order 2 of document 02.
use crate::answers::Refusal;
use crate::causes::{Handed, Size};
use crate::{ffi, TEXT_MAX};

/// The most bytes of a slip for each byte of its text: a \n by itself is a line of 60 spaces and a \n.
const MOST: usize = 61;

/// A text laid out for a box lid: lines of exactly 60 columns, each padded with spaces and closed by `\n`.
///
/// A word is a longest run of clusters without white space. A line takes as many words as fit, one space between; a
/// word over 60 columns starts a line and is cut between clusters at 60, its rest being taken as a word. A `\n`, also
/// in `\r\n`, ends the line, and a line without words is 60 spaces; after a `\n` that ends the text, or for an empty
/// text, no line follows.
///
/// [`Sizes`](Refusal::Sizes) where the text is over [`TEXT_MAX`], [`Foreign`](Refusal::Foreign) where a character of it
/// is outside the repertoire.
///
/// ```
/// let lid = tulofewa::slip("Ely, baptisms\n\nbox 12")?;
/// assert_eq!(lid, format!("{:60}\n{:60}\n{:60}\n", "Ely, baptisms", "", "box 12"));
/// # Ok::<(), tulofewa::Refusal>(())
/// ```
pub fn slip(text: &str) -> Result<String, Refusal> {
    let len = text.len();
    // a text that is over its limit is refused whatever its page
    let mut page = vec![0; len.min(TEXT_MAX).saturating_mul(MOST)];
    // SAFETY: two buffers, each with its length; the page is an allocation of this function, apart from the text.
    let answer = unsafe { ffi::tlf_text_slip(text.as_ptr(), len, page.as_mut_ptr(), page.len()) };
    Handed { sizes: &[Size::Slip { len }], texts: &[text], ..Handed::default() }.outcome(answer.number)?;
    page.truncate(answer.value);
    Ok(String::from_utf8(page).unwrap_or_default())
}
