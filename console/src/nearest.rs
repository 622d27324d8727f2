//! The names that somebody may have meant.

/// Longer words are nobody's slip.
const LONGEST: usize = 40;
/// As many names are told.
const MOST: usize = 3;

/// The nearest of some names to a word: those that it begins, else those that are fewest slips away, two at most.
pub fn nearest(word: &str, names: impl Iterator<Item = &'static str>) -> Vec<&'static str> {
    if word.len() > LONGEST {
        return Vec::new();
    }
    let slips = if word.chars().count() > 3 { 2 } else { 1 };
    let begins = |name: &str| word.len() > 1 && name.starts_with(word);
    let far = |name| if begins(name) { 0 } else { distance(word, name) };
    let names: Vec<_> = names.map(|name| (far(name), name)).filter(|(far, _)| *far <= slips).collect();
    let least = names.iter().map(|(far, _)| *far).min();
    names.into_iter().filter(|(far, _)| Some(*far) == least).map(|(_, name)| name).take(MOST).collect()
}

/// Levenshtein's distance: characters put in, cut or exchanged for another.
fn distance(a: &str, b: &str) -> usize {
    let mut row: Vec<usize> = (0..=b.chars().count()).collect();
    for (above, x) in a.chars().enumerate() {
        let mut corner = above;
        let mut left = above.saturating_add(1);
        row.iter_mut().take(1).for_each(|first| *first = left);
        for (cell, y) in row.iter_mut().skip(1).zip(b.chars()) {
            let exchanged = corner.saturating_add(usize::from(x != y));
            corner = *cell;
            left = exchanged.min(left.saturating_add(1)).min(corner.saturating_add(1));
            *cell = left;
        }
    }
    row.last().copied().unwrap_or_default()
}

#[cfg(test)]
mod tests {
    use super::*;

    #[test]
    fn distances() {
        for (a, b, far) in [("", "", 0), ("", "abc", 3), ("abc", "", 3), ("undo", "undo", 0), ("undu", "undo", 1)] {
            assert_eq!(distance(a, b), far, "{a} {b}");
        }
        assert_eq!((distance("kitten", "sitting"), distance("wordback", "word_back")), (3, 1));
    }

    #[test]
    fn names() {
        let names = || ["undo", "redo", "end", "insert", "indent", "delete", "delete_to"].into_iter();
        assert_eq!(nearest("undu", names()), ["undo"]);
        assert_eq!(nearest("udno", names()), ["undo"]);
        assert_eq!(nearest("inser", names()), ["insert"]);
        assert_eq!(nearest("del", names()), ["delete", "delete_to"]);
        assert_eq!(nearest("x", names()), [""; 0]);
        assert_eq!(nearest(&"x".repeat(50), names()), [""; 0]);
    }
}
