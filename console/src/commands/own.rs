//! The console's own commands.
use super::{call, Command, Does};
use crate::answers::{outcome, Said};
use crate::params::{Args, COMMAND, CURSOR, FIRST_TEXT, ROOM_RECORDS, ROOM_SLOTS, ROOM_TEXT, ROOM_TEXTS, TEXT};
use tulofewa::{EditLine, Foreign, Outcome, Refusal};

pub const COMMANDS: &[Command] = &[
    Command { name: "help", takes: &[COMMAND], about: "lists the commands, or explains one", does: Does::Help },
    Command { name: "show", takes: &[], about: "shows the line, the whole log and the ring", does: Does::Show },
    call("start", &[FIRST_TEXT, CURSOR], "another line begins, with an empty log; the ring stays", start),
    call("type", &[TEXT], "one insert for each character, up to the first that is refused", type_in),
    Command {
        name: "room",
        takes: &[ROOM_TEXT, ROOM_RECORDS, ROOM_TEXTS, ROOM_SLOTS],
        about: "shows the sizes of the buffers, or makes new ones, empty",
        does: Does::Room,
    },
    Command { name: "quit", takes: &[], about: "ends the console", does: Does::Quit },
];

fn start(line: &mut EditLine, args: &Args) -> Said {
    outcome(line.start(&args.text, args.cursor_in_text()).map(|()| Outcome::Done))
}

/// The place of a foreign character is that in the text.
fn type_in(line: &mut EditLine, args: &Args) -> Said {
    outcome(args.text.char_indices().try_fold(Outcome::Nothing, |_, (at, ch)| {
        line.insert(ch, 1).map_err(|refusal| match refusal {
            Refusal::Foreign(_) => Refusal::Foreign(Foreign::Char { ch, at }),
            other => other,
        })
    }))
}

/// New buffers of the sizes given, in the order of `room`'s parameters; the others as large as they are.
pub fn new_room(line: &mut EditLine, args: &Args) -> Said {
    let mut room = line.room();
    let sizes = [&mut room.text, &mut room.records, &mut room.texts, &mut room.slots];
    sizes.into_iter().zip(&args.sizes).for_each(|(size, given)| *size = *given);
    outcome(EditLine::new(room).map(|new| {
        *line = new;
        Outcome::Done
    }))
}
