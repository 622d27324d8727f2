//! What a call says: document 01's number and word, and behind them what else it answers, or why it is refused.
use crate::show::quoted;
use std::fmt;
use std::ops::Range;
use tulofewa::{Outcome, Pressed, Refusal};

pub struct Said {
    number: u32,
    word: &'static str,
    more: Option<String>,
}

impl Said {
    fn plain(outcome: Outcome) -> Said {
        Said { number: outcome.number(), word: outcome.word(), more: None }
    }

    fn refused(refusal: Refusal) -> Said {
        Said { number: refusal.number(), word: refusal.word(), more: Some(refusal.to_string()) }
    }

    /// Is it the number of bytes that are no key?
    pub fn is_unbound(&self) -> bool {
        self.number == Refusal::Unbound.number()
    }

    fn with(outcome: Outcome, more: String) -> Said {
        Said { more: Some(more), ..Said::plain(outcome) }
    }
}

/// A call that answers nothing else.
pub fn outcome(answer: Result<Outcome, Refusal>) -> Said {
    answer.map_or_else(Said::refused, Said::plain)
}

/// A call that answers something, in words.
pub fn found<T>(answer: Result<Option<T>, Refusal>, words: impl FnOnce(T) -> String) -> Said {
    match answer {
        Ok(Some(what)) => Said::with(Outcome::Done, words(what)),
        Ok(None) => Said::plain(Outcome::Nothing),
        Err(refusal) => Said::refused(refusal),
    }
}

/// A question.
pub fn yes(answer: Result<bool, Refusal>) -> Said {
    match answer {
        Ok(true) => Said::with(Outcome::Done, "yes".to_owned()),
        Ok(false) => Said::with(Outcome::Nothing, "no".to_owned()),
        Err(refusal) => Said::refused(refusal),
    }
}

/// Two places, and what stands between them in a text.
pub fn places(answer: Result<Option<Range<usize>>, Refusal>, text: &str) -> Said {
    found(answer, |range| {
        let between = quoted(text.get(range.clone()).unwrap_or_default());
        format!("places {} to {}, {between}", range.start, range.end)
    })
}

/// A slip: how many lines and bytes it has, and below that its lines, between bars.
pub fn slip(answer: Result<String, Refusal>) -> Said {
    found(answer.map(Some), |slip| {
        let lines: String = slip.lines().map(|line| format!("\n  |{line}|")).collect();
        format!("lines {}, bytes {}{lines}", slip.lines().count(), slip.len())
    })
}

/// A key: what it answers, with two places where it has some, and what stood between them in the text before.
pub fn pressed(answer: Result<Pressed, Refusal>, before: &str) -> Said {
    match answer {
        Ok(Pressed { cut: Some(range), .. }) => places(Ok(Some(range)), before),
        Ok(Pressed { outcome, .. }) => Said::plain(outcome),
        Err(refusal) => Said::refused(refusal),
    }
}

impl fmt::Display for Said {
    fn fmt(&self, f: &mut fmt::Formatter<'_>) -> fmt::Result {
        write!(f, "{} {}", self.number, self.word)?;
        match &self.more {
            Some(more) => write!(f, ": {more}"),
            None => Ok(()),
        }
    }
}
