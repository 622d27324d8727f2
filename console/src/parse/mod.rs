//! A line of input becomes a command and its arguments.
mod keys;
mod quotes;
#[cfg(test)]
mod tests;

use crate::commands::{find, Command, Does};
use crate::mistakes::Mistake;
use crate::params::{Args, Kind, Param};
use quotes::unquoted;

const BLANKS: [char; 2] = [' ', '\t'];

/// Blank, or a comment: there is nothing to be done.
pub fn is_idle(line: &str) -> bool {
    let line = line.trim_start_matches(BLANKS);
    line.is_empty() || line.starts_with('#')
}

/// The command that a line names, with its arguments.
pub fn command(line: &str) -> Result<(&'static Command, Args), Mistake<'_>> {
    let line = line.trim_matches(BLANKS);
    let (name, rest) = line.split_once(BLANKS).unwrap_or((line, ""));
    let command = find(name).ok_or(Mistake::NoCommand(name))?;
    if let Does::Movement(_, None) = command.does {
        return Err(Mistake::NotAlone(command));
    }
    Ok((command, arguments(command, rest)?))
}

/// An argument goes to the first parameter that takes it, of those that are left, up to the first that must be given: so
/// those that may be left out come in any order.
fn arguments<'a>(command: &'static Command, line: &'a str) -> Result<Args, Mistake<'a>> {
    let mut args = Args::default();
    let mut left: Vec<&'static Param> = command.takes.iter().collect();
    let mut line = line.trim_start_matches(BLANKS);
    while !line.is_empty() {
        let argument = Argument::first(command, line)?;
        let needed = left.iter().position(|param| param.left_out.is_none()).unwrap_or(left.len());
        let due: Vec<_> = left.iter().copied().take(needed.saturating_add(1)).collect();
        let (place, taken) = argument.taken(&due, &mut args)?.ok_or_else(|| argument.unfit(due))?;
        left.splice(place..=place, taken.next);
        line = taken.behind.trim_start_matches(BLANKS);
    }
    match left.into_iter().find(|param| param.left_out.is_none()) {
        Some(param) => Err(Mistake::Missing(command, param)),
        None => Ok(args),
    }
}

/// What stands next in a line.
struct Argument<'a> {
    command: &'static Command,
    /// Up to the next blank, or to the closing quote.
    raw: &'a str,
    /// What the quotes hold, if it is in quotes.
    text: Option<String>,
    /// The line from its start on.
    line: &'a str,
    /// The line behind it.
    behind: &'a str,
}

/// Where an argument has gone: what stands behind it, and the parameters that it brings with it.
struct Taken<'a> {
    behind: &'a str,
    next: &'static [Param],
}

impl<'a> Argument<'a> {
    fn first(command: &'static Command, line: &'a str) -> Result<Argument<'a>, Mistake<'a>> {
        let (text, behind) = match line.strip_prefix('"') {
            Some(inside) => unquoted(inside).map(|(text, behind)| (Some(text), behind))?,
            None => (None, line.find(BLANKS).and_then(|blank| line.get(blank..)).unwrap_or_default()),
        };
        if !behind.is_empty() && !behind.starts_with(BLANKS) {
            return Err(Mistake::Touching(behind));
        }
        let raw = line.strip_suffix(behind).unwrap_or(line);
        Ok(Argument { command, raw, text, line, behind })
    }

    /// The first of some parameters that takes it, and what follows from that.
    fn taken(&self, due: &[&'static Param], args: &mut Args) -> Result<Option<(usize, Taken<'a>)>, Mistake<'a>> {
        for (place, param) in due.iter().enumerate() {
            if let Some(taken) = self.goes_to(param, args)? {
                return Ok(Some((place, taken)));
            }
        }
        Ok(None)
    }

    /// What is in quotes is a text or a character. A name that should be one and is none is an error at once, and so is
    /// a number that is too large.
    fn goes_to(&self, param: &'static Param, args: &mut Args) -> Result<Option<Taken<'a>>, Mistake<'a>> {
        let Argument { command, raw, line, behind, .. } = *self;
        let taken = |next| Ok(Some(Taken { behind, next }));
        match (&param.kind, &self.text) {
            (Kind::Text(set), Some(text)) => set(args, text.clone()),
            (Kind::Text(set), None) => {
                set(args, line.to_owned());
                return Ok(Some(Taken { behind: "", next: &[] }));
            }
            (Kind::Key(set), Some(text)) => set(args, text.clone().into_bytes()),
            (Kind::Key(set), None) => {
                set(args, keys::bytes(line.split(BLANKS))?);
                return Ok(Some(Taken { behind: "", next: &[] }));
            }
            (Kind::Character(set), text) => match only_char(text.as_deref().unwrap_or(raw)) {
                Some(ch) => set(args, ch),
                None => return Ok(None),
            },
            (Kind::Number(most, set), None) if raw.bytes().all(|byte| byte.is_ascii_digit()) => {
                let number = raw.parse().ok().filter(|number| number <= most);
                set(args, number.ok_or(Mistake::Over(command, param, *most, raw))?);
            }
            (Kind::OneOf(names), None) => match names.iter().find(|(name, _)| *name == raw) {
                Some((_, set)) => set(args),
                None => return Ok(None),
            },
            (Kind::Movement, None) => {
                let command = find(raw).ok_or(Mistake::NoMovement(raw))?;
                args.movement = command.movement().ok_or(Mistake::NoMovement(raw))?;
                return taken(command.takes);
            }
            (Kind::Command, None) => args.command = Some(find(raw).ok_or(Mistake::NoCommand(raw))?),
            _ => return Ok(None),
        }
        taken(&[])
    }

    fn unfit(&self, due: Vec<&'static Param>) -> Mistake<'a> {
        if due.is_empty() {
            Mistake::Surplus(self.command, self.raw)
        } else {
            Mistake::Unfit(self.command, self.raw, due)
        }
    }
}

fn only_char(text: &str) -> Option<char> {
    let mut chars = text.chars();
    chars.next().filter(|_| chars.next().is_none())
}
