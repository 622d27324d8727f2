//! Listeners of the Rust's edits.
use crate::line_buffer::{ChangeListener, DeleteListener, Direction};
use crate::log_calls::{Args, row};
use crate::log_lists::Call;

/// Hands everything on to another listener: the Rust's methods want one whose type they know.
pub struct Ears<'a>(pub &'a mut dyn ChangeListener);

impl DeleteListener for Ears<'_> {
    fn start_killing(&mut self) {
        self.0.start_killing();
    }

    fn delete(&mut self, idx: usize, string: &str, dir: Direction) {
        self.0.delete(idx, string, dir);
    }

    fn stop_killing(&mut self) {
        self.0.stop_killing();
    }
}

impl ChangeListener for Ears<'_> {
    fn insert_char(&mut self, idx: usize, c: char) {
        self.0.insert_char(idx, c);
    }

    fn insert_str(&mut self, idx: usize, string: &str) {
        self.0.insert_str(idx, string);
    }

    fn replace(&mut self, idx: usize, old: &str, new: &str) {
        self.0.replace(idx, old, new);
    }
}

/// A change that was heard: the log's own call that records it, and by how much the text becomes longer.
pub struct Heard {
    pub call: Call,
    pub more: isize,
}

/// Keeps the changes that it hears.
#[derive(Default)]
pub struct Witness(pub Vec<Heard>);

impl Witness {
    fn note(&mut self, name: &str, args: Args, put_in: usize, cut: usize) {
        self.0.push(Heard { call: Call { row: row(name), args }, more: put_in as isize - cut as isize });
    }
}

impl DeleteListener for Witness {
    fn delete(&mut self, idx: usize, string: &str, _: Direction) {
        let args = Args { idx, buf: string.into(), ..Args::default() };
        self.note("tlf_log_delete", args, 0, string.len());
    }
}

impl ChangeListener for Witness {
    fn insert_char(&mut self, idx: usize, c: char) {
        self.note("tlf_log_insert", Args { idx, ch: c.into(), ..Args::default() }, c.len_utf8(), 0);
    }

    fn insert_str(&mut self, idx: usize, string: &str) {
        let args = Args { idx, buf: string.into(), ..Args::default() };
        self.note("tlf_log_insert_str", args, string.len(), 0);
    }

    fn replace(&mut self, idx: usize, old: &str, new: &str) {
        let args = Args { idx, old: old.into(), new: new.into(), ..Args::default() };
        self.note("tlf_log_replace", args, new.len(), old.len());
    }
}
