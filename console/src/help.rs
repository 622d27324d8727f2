//! `help`: the table of commands, or one of its rows.
use crate::commands::{all, Command, GROUPS};
use std::io::{self, Write};

pub fn list(out: &mut impl Write) -> io::Result<()> {
    let width = all().map(|command| command.usage().len()).max().unwrap_or_default();
    for group in GROUPS {
        writeln!(out, "{}", group.title)?;
        for command in group.commands {
            writeln!(out, "  {:width$}  {}", command.usage(), command.about)?;
        }
    }
    write!(out, "{HOW_TO}")
}

const HOW_TO: &str = r#"How to write them
  One command to a line. What is in brackets may be left out; help NAME tells what it is then.
  A text is the rest of the line, or in quotes, with \n, \t, \r, \", \\ and \u{e9}. A character is written likewise.
  Places, sizes and lengths count bytes, n counts times. A line that begins with # is a comment.
"#;

pub fn explain(command: &Command, out: &mut impl Write) -> io::Result<()> {
    writeln!(out, "{}: {}", command.usage(), command.about)?;
    let width = command.takes.iter().map(|param| param.word.len()).max().unwrap_or_default();
    for param in command.takes {
        let left_out = param.left_out.map(|what| format!("; left out: {what}")).unwrap_or_default();
        writeln!(out, "  {:width$}  {}{left_out}", param.word, param.what())?;
    }
    Ok(())
}
