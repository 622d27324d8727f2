//! The questions: nothing changes.
use super::{call, Command};
use crate::answers::{found, places, slip, yes};
use crate::params::{COLUMN, MOVEMENT, N, TEXT};
use tulofewa::{foreign, width};

pub const COMMANDS: &[Command] = &[
    call("next_pos", &[N], "the place n clusters on", |l, a| found(l.next_pos(a.n), |place| format!("place {place}"))),
    call("copy", &[MOVEMENT], "the places between which a movement's text stands", |l, a| {
        places(l.copy(a.movement()), l.text())
    }),
    call("is_cursor_at_end", &[], "does the cursor stand at the text's end?", |l, _| yes(l.is_cursor_at_end())),
    call("is_end_of_input", &[], "does only white space follow the cursor?", |l, _| yes(l.is_end_of_input())),
    call("slip", &[], "the text as a slip: lines of 60 columns, shown between bars", |l, _| slip(l.slip())),
    call("foreign", &[TEXT], "the first character of a text that is outside the repertoire", |_, a| {
        found(Ok(foreign(&a.text)), |what| what.to_string())
    }),
    call("width", &[TEXT, COLUMN], "the columns of a text that starts at a column", |_, a| {
        found(Ok(Some(width(&a.text, a.column))), |columns| format!("columns {columns}"))
    }),
];
