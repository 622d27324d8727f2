//! Tables in Markdown.
use crate::timing::Figure;

/// Every three digits a comma.
pub fn grouped(number: usize) -> String {
    let digits = number.to_string();
    let from_end = |i: usize| digits.len() - i;
    digits.char_indices().fold(String::new(), |mut out, (i, digit)| {
        if i > 0 && from_end(i) % 3 == 0 {
            out.push(',');
        }
        out.push(digit);
        out
    })
}

/// Three figures at least, no more than two behind the point.
pub fn number(value: f64) -> String {
    match value {
        _ if value.is_nan() => "-".into(),
        _ if value >= 100.0 => grouped(value.round() as usize),
        _ if value >= 10.0 => format!("{value:.1}"),
        _ => format!("{value:.2}"),
    }
}

/// The median, with the least and the most in brackets.
pub fn figure(figure: &Figure) -> String {
    if figure.median.is_nan() {
        return "-".into();
    }
    format!("{} ({} to {})", number(figure.median), number(figure.least), number(figure.most))
}

pub fn line(cells: &[String]) {
    println!("| {} |", cells.join(" | "));
}

pub fn head(title: &str, cells: &[&str]) {
    println!("\n{title}\n\n| {} |\n|{}", cells.join(" | "), "---|".repeat(cells.len()));
}
