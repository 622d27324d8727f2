//! The table of commands. What `help` lists, what is understood and what the messages say all come from it.
mod edits;
mod keys;
mod log;
mod movements;
mod own;
mod questions;
mod ring;

pub use own::new_room;

#[cfg(test)]
mod tests;

use crate::answers::Said;
use crate::params::{Args, Param};
use tulofewa::{EditLine, Movement};

#[derive(Debug)]
pub struct Command {
    pub name: &'static str,
    pub takes: &'static [Param],
    pub about: &'static str,
    pub does: Does,
}

pub type Call = fn(&mut EditLine, &Args) -> Said;

#[derive(Debug)]
pub enum Does {
    /// Calls the library.
    Call(Call),
    /// Is a movement behind copy, kill, kill_to_ring and indent, and moves the cursor alone, where there is a call for that.
    Movement(fn(&Args) -> Movement, Option<Call>),
    Help,
    Show,
    Room,
    Quit,
}

/// Commands that belong together.
pub struct Group {
    pub title: &'static str,
    pub commands: &'static [Command],
}

pub const GROUPS: &[Group] = &[
    Group { title: "The console", commands: own::COMMANDS },
    Group { title: "Edits", commands: edits::COMMANDS },
    Group {
        title: "Movements: behind copy, kill, kill_to_ring and indent what they go over, alone a motion of the cursor",
        commands: movements::COMMANDS,
    },
    Group { title: "Motions by the Rust's names", commands: movements::MOTIONS },
    Group { title: "Questions", commands: questions::COMMANDS },
    Group { title: "The log", commands: log::COMMANDS },
    Group { title: "The ring", commands: ring::COMMANDS },
    Group { title: "Keys", commands: keys::COMMANDS },
];

pub fn all() -> impl Iterator<Item = &'static Command> {
    GROUPS.iter().flat_map(|group| group.commands)
}

pub fn find(name: &str) -> Option<&'static Command> {
    all().find(|command| command.name == name)
}

impl Command {
    /// The name with its parameters.
    pub fn usage(&self) -> String {
        let words = self.takes.iter().map(|param| format!(" {}", param.usage()));
        format!("{}{}", self.name, words.collect::<String>())
    }

    /// The movement that it is behind copy, kill, kill_to_ring and indent, if it is one.
    pub fn movement(&self) -> Option<fn(&Args) -> Movement> {
        match self.does {
            Does::Movement(movement, _) => Some(movement),
            _ => None,
        }
    }
}

const fn call(name: &'static str, takes: &'static [Param], about: &'static str, call: Call) -> Command {
    Command { name, takes, about, does: Does::Call(call) }
}
