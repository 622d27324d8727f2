//! What the keys come to, with no terminal: a line, a suggestion that may be open, and what is to be said.
use super::panel::panel;
use super::table::{bound, Act, CONTROL_X};
use crate::answers::{outcome, pressed, Said};
use std::mem;
use tulofewa::{foreign, key_count, width, EditLine, Foreign, Input, Outcome, Refusal, Room, Size};

pub const PROMPT: &str = "> ";
const GREETING: &str = "C-x h lists the keys";
const NOT_EMPTY: &str = "the line is not empty: C-c again leaves without it";

pub struct Editor {
    line: EditLine,
    /// The mark of the suggestion that is shown.
    suggestion: Option<usize>,
    /// A key with control x that waits for its second byte.
    begun: Vec<u8>,
    /// C-c was pressed on a line that is not empty.
    warned: bool,
    /// Is the panel shown?
    panel: bool,
    status: String,
    bell: bool,
}

/// What comes of an input.
#[derive(Debug, PartialEq)]
pub enum Step {
    Stay,
    /// This line is finished, and another begins.
    Finished(String),
    Leave,
    /// The keys are to be listed.
    List,
    Redraw,
    Suspend,
}

impl Editor {
    pub fn new() -> Result<Editor, Refusal> {
        Ok(Editor {
            line: EditLine::new(Room::default())?,
            suggestion: None,
            begun: Vec::new(),
            warned: false,
            panel: false,
            status: GREETING.to_owned(),
            bell: false,
        })
    }

    pub fn line(&self) -> &EditLine {
        &self.line
    }

    pub fn status(&self) -> &str {
        &self.status
    }

    /// The bytes of a key that waits for its second byte.
    pub fn begun(&self) -> &[u8] {
        &self.begun
    }

    /// The panel's rows, where it is shown.
    pub fn panel(&self) -> Vec<String> {
        if self.panel {
            panel(&self.line)
        } else {
            Vec::new()
        }
    }

    /// Is the bell to be rung? Once.
    pub fn bell(&mut self) -> bool {
        mem::take(&mut self.bell)
    }

    /// Does what an input asks for.
    pub fn take(&mut self, input: Input) -> Step {
        let (warned, begun) = (mem::take(&mut self.warned), mem::take(&mut self.begun));
        match input {
            Input::Key(key) => return self.press([begun, key].concat(), warned),
            Input::Paste(text) => self.paste(&text),
            Input::LongPaste(len) => {
                let room = self.line.room().text;
                self.say(Err(Refusal::Sizes(Size::Given { len, room })));
            }
        }
        Step::Stay
    }

    fn press(&mut self, key: Vec<u8>, warned: bool) -> Step {
        let (count, behind) = key_count(&key);
        if behind == [CONTROL_X] {
            self.begun = key;
            return Step::Stay;
        }
        let n = count.unwrap_or(1);
        match bound(behind) {
            Act::Enter if self.suggestion.is_none() => return self.finish(),
            Act::Enter => self.keep(),
            Act::EndOfInput if self.line.text().is_empty() => return Step::Leave,
            Act::Leave if warned || self.line.text().is_empty() => return Step::Leave,
            Act::Leave => {
                self.warned = true;
                self.status = NOT_EMPTY.to_owned();
            }
            Act::Dismiss if self.suggestion.is_some() => self.dismiss(),
            Act::Panel => self.panel = !self.panel,
            Act::List => return Step::List,
            Act::Redraw => return Step::Redraw,
            Act::Suspend => return Step::Suspend,
            Act::Suggest => self.kept(Editor::suggest),
            Act::Call(call) => self.kept(|editor| {
                let answer = call(&mut editor.line, n, width(PROMPT, 0));
                editor.reset_after(answer);
            }),
            Act::Kill(movement) => self.kept(|editor| {
                let answer = editor.line.kill_to_ring(movement(n));
                editor.say(answer);
            }),
            Act::Library | Act::EndOfInput | Act::Dismiss => self.kept(|editor| {
                let before = editor.line.text().to_owned();
                let answer = editor.line.key(&key);
                editor.tell(&pressed(answer, &before));
            }),
        }
        Step::Stay
    }

    /// The line is finished: another begins, with the ring as it is.
    fn finish(&mut self) -> Step {
        let text = self.line.text().to_owned();
        match self.line.start("", 0) {
            Ok(()) => {
                self.status = GREETING.to_owned();
                Step::Finished(text)
            }
            Err(refusal) => {
                self.say(Err(refusal));
                Step::Stay
            }
        }
    }

    /// The first word becomes a name, in a group that stays open until the suggestion is kept or dismissed.
    fn suggest(&mut self) {
        let text = self.line.text();
        let end = text.find(|ch: char| !ch.is_alphanumeric()).unwrap_or(text.len());
        let name = format!("{}, Saint Mary", text.get(..end).unwrap_or_default());
        if end == 0 {
            return self.say(Ok(Outcome::Nothing));
        }
        let answer = self.whole(|line| {
            let mark = line.begin()?;
            line.replace(0..end, &name)?;
            Ok(mark)
        });
        match answer {
            Ok(mark) => {
                self.suggestion = Some(mark);
                self.reset_after(Ok(Outcome::Done));
                self.status.push_str("; Enter keeps it, C-g dismisses it");
            }
            Err(refusal) => self.say(Err(refusal)),
        }
    }

    /// Keeps the suggestion: its group is closed.
    fn keep(&mut self) {
        let answer = self.line.end();
        if answer.is_ok() {
            self.suggestion = None;
        }
        self.reset_after(answer);
    }

    /// Takes the suggestion back, as if it had never been.
    fn dismiss(&mut self) {
        let Some(mark) = self.suggestion.take() else { return };
        let answer = self.line.cancel(mark);
        self.reset_after(answer);
    }

    /// Does something once a suggestion is kept; a group that cannot be closed stops it.
    fn kept(&mut self, what: impl FnOnce(&mut Editor)) {
        if self.suggestion.is_some() {
            self.keep();
        }
        if self.suggestion.is_none() {
            what(self);
        }
    }

    /// Puts a text in as one group, which one undo takes back; its line ends are newlines. A foreign character is named
    /// with its place, and nothing is put in.
    fn paste(&mut self, bytes: &[u8]) {
        let text = match text_of(bytes) {
            Ok(text) => text.replace("\r\n", "\n").replace('\r', "\n"),
            Err(refusal) => return self.say(Err(refusal)),
        };
        self.kept(|editor| {
            if text.is_empty() {
                return editor.say(Ok(Outcome::Nothing));
            }
            let answer = editor.whole(|line| {
                line.begin()?;
                line.yank(&text, 1)?;
                line.end()
            });
            editor.reset_after(answer);
        });
    }

    /// Some calls, all of them or none.
    fn whole<T>(&mut self, calls: impl FnOnce(&mut EditLine) -> Result<T, Refusal>) -> Result<T, Refusal> {
        let before = self.line.clone();
        calls(&mut self.line).inspect_err(|_| self.line = before)
    }

    /// Says an answer; a call that is not refused resets the ring, as a key of the library's does.
    fn reset_after(&mut self, answer: Result<Outcome, Refusal>) {
        let answer = answer.and_then(|outcome| self.line.ring_mut().reset().map(|_| outcome));
        self.say(answer);
    }

    fn say(&mut self, answer: Result<Outcome, Refusal>) {
        self.tell(&outcome(answer));
    }

    /// The status row has the number and the word; 13 rings the bell.
    fn tell(&mut self, said: &Said) {
        self.status = said.to_string();
        self.bell |= said.is_unbound();
    }
}

/// A paste as a text of the repertoire, or what is foreign in it.
fn text_of(bytes: &[u8]) -> Result<&str, Refusal> {
    match std::str::from_utf8(bytes) {
        Ok(text) => foreign(text).map_or(Ok(text), |foreign| Err(Refusal::Foreign(foreign))),
        Err(e) => {
            let at = e.valid_up_to();
            let byte = bytes.get(at).copied().unwrap_or_default();
            Err(Refusal::Foreign(Foreign::Byte { byte, at }))
        }
    }
}

#[cfg(test)]
mod tests;
