//! The key.
use super::{call, Command};
use crate::answers::pressed;
use crate::params::KEY;

pub const COMMANDS: &[Command] =
    &[call("key", &[KEY], "does what one key stands for, with the ring: key ESC 3 C-f", |l, a| {
        let before = l.text().to_owned();
        pressed(l.key(&a.key), &before)
    })];
