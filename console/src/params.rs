//! The parameters of commands: the word for each, what it takes, and what it is when it is left out.
use crate::commands::Command;
use tulofewa::{At, CharSearch, Mode, Movement, Word, WordAction};

/// A parameter.
#[derive(Debug)]
pub struct Param {
    pub word: &'static str,
    pub kind: Kind,
    /// What it is when it is left out; where there is nothing, it may not be.
    pub left_out: Option<&'static str>,
}

/// What a parameter takes, and where it goes.
#[derive(Debug)]
pub enum Kind {
    /// A number up to this one.
    Number(usize, fn(&mut Args, usize)),
    /// One character, in quotes or not.
    Character(fn(&mut Args, char)),
    /// A text in quotes, or the rest of the line.
    Text(fn(&mut Args, String)),
    /// The bytes of a key: words to the end of the line, or a text in quotes.
    Key(fn(&mut Args, Vec<u8>)),
    /// One of these names.
    OneOf(&'static [Named]),
    /// A movement's name; its own parameters come next.
    Movement,
    /// The name of a command.
    Command,
}

/// A name, and what it sets.
pub type Named = (&'static str, fn(&mut Args));

/// The arguments of any command: each takes its own.
pub struct Args {
    pub n: u16,
    pub text: String,
    pub old: String,
    pub ch: char,
    pub key: Vec<u8>,
    /// Where it is left out, the text's end.
    pub cursor: Option<usize>,
    pub pos: usize,
    pub start: usize,
    pub end: usize,
    pub idx: usize,
    pub mark: usize,
    pub len: usize,
    pub size: usize,
    pub prompt: usize,
    pub column: usize,
    pub word: Word,
    pub at: At,
    pub search: fn(char) -> CharSearch,
    pub action: WordAction,
    pub mode: Mode,
    pub movement: fn(&Args) -> Movement,
    pub amount: u8,
    pub dedent: bool,
    /// `room`'s, as far as they are given.
    pub sizes: Vec<usize>,
    pub command: Option<&'static Command>,
}

impl Default for Args {
    fn default() -> Args {
        Args {
            n: 1,
            text: String::new(),
            old: String::new(),
            ch: '\0',
            key: Vec::new(),
            cursor: None,
            pos: 0,
            start: 0,
            end: 0,
            idx: 0,
            mark: 0,
            len: 0,
            size: 0,
            prompt: 0,
            column: 0,
            word: Word::Emacs,
            at: At::AfterEnd,
            search: CharSearch::Forward,
            action: WordAction::Capitalize,
            mode: Mode::Append,
            movement: |_| Movement::WholeLine,
            amount: 0,
            dedent: false,
            sizes: Vec::new(),
            command: None,
        }
    }
}

impl Args {
    pub fn char_search(&self) -> CharSearch {
        (self.search)(self.ch)
    }

    pub fn movement(&self) -> Movement {
        (self.movement)(self)
    }

    /// The cursor given, or the end of the text given.
    pub fn cursor_in_text(&self) -> usize {
        self.cursor.unwrap_or(self.text.len())
    }
}

impl Param {
    const fn new(word: &'static str, kind: Kind) -> Param {
        Param { word, kind, left_out: None }
    }

    /// A number of the machine's range: the library says what is too large.
    const fn number(word: &'static str, set: fn(&mut Args, usize)) -> Param {
        Param::new(word, Kind::Number(usize::MAX, set))
    }

    const fn or(mut self, left_out: &'static str) -> Param {
        self.left_out = Some(left_out);
        self
    }

    /// As a usage has it: in brackets where it may be left out.
    pub fn usage(&self) -> String {
        if self.left_out.is_some() {
            format!("[{}]", self.word)
        } else {
            self.word.to_owned()
        }
    }

    /// What it takes, in words.
    pub fn what(&self) -> String {
        match &self.kind {
            Kind::Number(usize::MAX, _) => "a number".to_owned(),
            Kind::Number(most, _) => format!("a number from 0 to {}", grouped(*most)),
            Kind::Character(_) => "one character, as it is or in quotes".to_owned(),
            Kind::Text(_) => "a text in quotes, or the rest of the line".to_owned(),
            Kind::Key(_) => format!("words to the end of the line: {KEY_WORDS}"),
            Kind::OneOf(names) => either(names.iter().map(|(name, _)| *name)),
            Kind::Movement => "a movement with its arguments".to_owned(),
            Kind::Command => "the name of a command".to_owned(),
        }
    }
}

/// A number with a comma before each three digits: 65,535.
pub fn grouped(number: usize) -> String {
    match number.checked_div(1000) {
        Some(thousands @ 1..) => format!("{},{:03}", grouped(thousands), number % 1000),
        _ => number.to_string(),
    }
}

/// "a, b or c".
pub fn either<'a>(names: impl Iterator<Item = &'a str>) -> String {
    let mut names: Vec<_> = names.collect();
    match names.pop() {
        Some(last) if names.is_empty() => last.to_owned(),
        Some(last) => format!("{} or {last}", names.join(", ")),
        None => String::new(),
    }
}

/// What the words of a key are.
pub const KEY_WORDS: &str = "ESC, C-x, SP, TAB, LF, CR, digits, a character, or x: with bytes as in x:C3A9";

const COUNT_MAX: usize = u16::MAX as usize;
const AMOUNT_MAX: usize = u8::MAX as usize;

pub const N: Param = Param::new("n", Kind::Number(COUNT_MAX, |a, n| a.n = n.try_into().unwrap_or(u16::MAX))).or("1");
pub const AMOUNT: Param =
    Param::new("amount", Kind::Number(AMOUNT_MAX, |a, n| a.amount = n.try_into().unwrap_or(u8::MAX)));
pub const POS: Param = Param::number("pos", |a, n| a.pos = n);
pub const START: Param = Param::number("start", |a, n| a.start = n);
pub const END: Param = Param::number("end", |a, n| a.end = n);
pub const IDX: Param = Param::number("idx", |a, n| a.idx = n);
pub const MARK: Param = Param::number("mark", |a, n| a.mark = n);
pub const LEN: Param = Param::number("len", |a, n| a.len = n);
pub const SIZE: Param = Param::number("size", |a, n| a.size = n);
pub const YANK_SIZE: Param = Param::number("yank_size", |a, n| a.size = n);
pub const PROMPT: Param = Param::number("prompt", |a, n| a.prompt = n).or("0");
pub const COLUMN: Param = Param::number("column", |a, n| a.column = n).or("0");
/// A cursor in a text that is given with it.
pub const UPDATE_POS: Param = Param::number("pos", |a, n| a.cursor = Some(n)).or("the text's end");
pub const CURSOR: Param = Param::number("cursor", |a, n| a.cursor = Some(n)).or("the text's end");

pub const CH: Param = Param::new("ch", Kind::Character(|a, ch| a.ch = ch));
pub const KEY: Param = Param::new("key", Kind::Key(|a, key| a.key = key));
pub const TEXT: Param = Param::new("text", Kind::Text(|a, text| a.text = text));
pub const FIRST_TEXT: Param = Param::new("text", Kind::Text(|a, text| a.text = text)).or("empty");
pub const OLD: Param = Param::new("old", Kind::Text(|a, text| a.old = text));
pub const NEW: Param = Param::new("new", Kind::Text(|a, text| a.text = text));

pub const WORD: Param = Param::new(
    "word",
    Kind::OneOf(&[("big", |a| a.word = Word::Big), ("emacs", |a| a.word = Word::Emacs), ("vi", |a| a.word = Word::Vi)]),
)
.or("emacs");
pub const AT: Param = Param::new(
    "at",
    Kind::OneOf(&[
        ("start", |a| a.at = At::Start),
        ("before_end", |a| a.at = At::BeforeEnd),
        ("after_end", |a| a.at = At::AfterEnd),
    ]),
)
.or("after_end");
pub const SEARCH: Param = Param::new(
    "search",
    Kind::OneOf(&[
        ("forward", |a| a.search = CharSearch::Forward),
        ("forward_before", |a| a.search = CharSearch::ForwardBefore),
        ("backward", |a| a.search = CharSearch::Backward),
        ("backward_after", |a| a.search = CharSearch::BackwardAfter),
    ]),
)
.or("forward");
pub const ACTION: Param = Param::new(
    "action",
    Kind::OneOf(&[
        ("capitalize", |a| a.action = WordAction::Capitalize),
        ("lowercase", |a| a.action = WordAction::Lowercase),
        ("uppercase", |a| a.action = WordAction::Uppercase),
    ]),
);
pub const MODE: Param =
    Param::new("mode", Kind::OneOf(&[("append", |a| a.mode = Mode::Append), ("prepend", |a| a.mode = Mode::Prepend)]))
        .or("append");
pub const DEDENT: Param =
    Param::new("dedent", Kind::OneOf(&[("indent", |a| a.dedent = false), ("dedent", |a| a.dedent = true)]))
        .or("indent");
pub const MOVEMENT: Param = Param::new("movement", Kind::Movement);

const fn room_size(word: &'static str) -> Param {
    Param::number(word, |a, n| a.sizes.push(n)).or("as it is")
}
pub const ROOM_TEXT: Param = room_size("text");
pub const ROOM_RECORDS: Param = room_size("records");
pub const ROOM_TEXTS: Param = room_size("texts");
pub const ROOM_SLOTS: Param = room_size("slots");

pub const COMMAND: Param = Param::new("command", Kind::Command).or("all of them");
