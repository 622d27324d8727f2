//! The columns that a text takes, as the library's line moves count them.

/// The column behind a character that stands at a column: the marks U+0300 to U+0333 take none, all others one.
#[must_use]
pub fn advance(column: usize, ch: char) -> usize {
    match ch {
        '\u{300}'..='\u{333}' => column,
        _ => column.saturating_add(1),
    }
}

/// The columns of a text that starts at a column.
///
/// ```
/// assert_eq!(tulofewa::width("Saint-Andre\u{301}", 0), 11);
/// ```
#[must_use]
pub fn width(text: &str, column: usize) -> usize {
    text.chars().fold(column, advance).saturating_sub(column)
}
