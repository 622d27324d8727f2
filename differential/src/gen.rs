//! Inputs: small texts one after the other, drawn texts and arguments, and what spoils them.
use crate::checks::{self, MAX_PROMPT, MAX_TEXT, first_character, in_repertoire, last_code};
use crate::line_calls::{Args, Param, SMALL_BUF, SMALL_BUFS, uses};

/// splitmix64.
pub struct Rng(u64);

impl Rng {
    pub fn new(seed: u64) -> Rng {
        Rng(seed)
    }

    pub fn next(&mut self) -> u64 {
        self.0 = self.0.wrapping_add(0x9E37_79B9_7F4A_7C15);
        let mut z = self.0;
        z = (z ^ z >> 30).wrapping_mul(0xBF58_476D_1CE4_E5B9);
        z = (z ^ z >> 27).wrapping_mul(0x94D0_49BB_1331_11EB);
        z ^ z >> 31
    }

    /// A number from 0 to `count` - 1.
    pub fn below(&mut self, count: usize) -> usize {
        ((u128::from(self.next()) * count as u128) >> 64) as usize
    }

    pub fn one_in(&mut self, count: usize) -> bool {
        self.below(count) == 0
    }

    pub fn pick<T: Copy>(&mut self, from: &[T]) -> T {
        from[self.below(from.len())]
    }

    /// A place in these weights, each as often as its weight says.
    pub fn weighted(&mut self, weights: &[usize]) -> usize {
        let mut left = self.below(weights.iter().sum());
        let found = |&weight: &usize| {
            let found = left < weight;
            left = left.saturating_sub(weight);
            found
        };
        weights.iter().position(found).unwrap()
    }
}

/// One or two of every kind that a motion tells apart: letters of one and two bytes, white space of one and two bytes,
/// the word character of Vi alone, another character, the three that clusters break around, a mark.
pub const SMALL: [char; 11] = ['a', 'B', ' ', '-', '_', '\t', '\r', '\n', '\u{A0}', '\u{DF}', '\u{301}'];

/// A character that no small text holds.
const ABSENT: char = 'z';

/// The `number`-th text of `letters` characters of the small alphabet.
pub fn small_text(mut number: usize, letters: u32) -> String {
    let digit = |_| {
        let letter = SMALL[number % SMALL.len()];
        number /= SMALL.len();
        letter
    };
    (0..letters).map(digit).collect()
}

pub fn small_texts(letters: u32) -> usize {
    SMALL.len().pow(letters)
}

/// Every boundary of a text of the repertoire.
pub fn boundaries(text: &[u8]) -> impl Iterator<Item = usize> {
    (0..=text.len()).filter(|&place| !checks::splits(text, place))
}

/// All small arguments of a call with these parameters on this text, each combination once.
pub fn small_args(takes: &'static [Param], text: &str) -> Vec<Args> {
    let mut all = Vec::new();
    let values = |param| match param {
        // An amount and a direction come with every movement: fewer counts.
        Param::N if takes.contains(&Param::Amount) => vec![0, 1, 65535],
        // A place in the text to put in.
        Param::Pos if takes.contains(&Param::Buf) => (0..=SMALL_BUF + 1).collect(),
        _ => small_values(param, text),
    };
    fill(takes, &values, Args::default(), 0, &mut all);
    all
}

/// Once with every combination of codes, everything else as in `FIRST`.
pub fn code_args(takes: &'static [Param]) -> Vec<Args> {
    let values = |param| if last_code(param).is_some() { small_values(param, "") } else { vec![FIRST.get(param)] };
    let mut all = Vec::new();
    fill(takes, &values, FIRST, 0, &mut all);
    all
}

/// n and the amount are 1, the character a hyphen, every other number 0, a text empty.
pub const FIRST: Args = Args {
    n: 1,
    pos: 0,
    prompt: 0,
    mvt: 0,
    at: 0,
    word: 0,
    search: 0,
    ch: '-' as u32,
    action: 0,
    size: 0,
    start: 0,
    end: 0,
    buf: Vec::new(),
    amount: 1,
    dedent: 0,
    mark: 0,
};

/// The combinations of values for the parameters from the `filled`-th on.
fn fill(takes: &'static [Param], values: &dyn Fn(Param) -> Vec<usize>, args: Args, filled: usize, all: &mut Vec<Args>) {
    match uses(takes, &args).get(filled) {
        None => all.push(args),
        Some(&param) => {
            for value in values(param) {
                fill(takes, values, args.clone().with(param, value), filled + 1, all);
            }
        }
    }
}

fn small_values(param: Param, text: &str) -> Vec<usize> {
    match param {
        Param::N => vec![0, 1, 2, 3, 4, 65535],
        Param::Pos | Param::Size | Param::Start | Param::End => (0..=text.len() + 1).collect(),
        Param::Amount => vec![0, 1, 33],
        Param::Dedent => vec![0, 1],
        Param::Mark => vec![0, 1, 2, 3, usize::MAX],
        Param::Buf => (0..SMALL_BUFS.len()).collect(),
        Param::Prompt => vec![0, 1, 2, MAX_PROMPT, MAX_PROMPT + 1],
        Param::Ch => {
            let mut chars: Vec<usize> = text.chars().chain([ABSENT]).map(|c| c as usize).collect();
            chars.sort_unstable();
            chars.dedup();
            chars
        }
        Param::Mvt | Param::At | Param::Word | Param::Search | Param::Action => {
            (0..=last_code(param).unwrap() as usize).collect()
        }
    }
}

/// Code points from 0 to past the last of the repertoire.
pub const CODE_POINTS: u32 = 0x400;

/// The repertoire.
pub fn members() -> impl Iterator<Item = char> {
    (0..CODE_POINTS).filter(|&c| in_repertoire(c)).map(|c| char::from_u32(c).unwrap())
}

/// Any character of the repertoire.
pub fn member(rng: &mut Rng) -> char {
    loop {
        let c = rng.below(CODE_POINTS as usize) as u32;
        if in_repertoire(c) {
            return char::from_u32(c).unwrap();
        }
    }
}

/// A text of exactly `len` bytes in one of several styles.
pub fn drawn_text(rng: &mut Rng, len: usize) -> Vec<u8> {
    let style = rng.below(8);
    let mut text = String::with_capacity(len);
    while text.len() < len {
        let c = drawn_character(rng, style);
        let fits = text.len() + c.len_utf8() <= len;
        text.push(if fits { c } else { 'a' });
    }
    text.into_bytes()
}

fn drawn_character(rng: &mut Rng, style: usize) -> char {
    match style {
        // The small alphabet.
        0 => rng.pick(&SMALL),
        // The whole repertoire.
        1 => member(rng),
        // Words and long lines.
        2 if rng.one_in(60) => '\n',
        2 if rng.one_in(5) => rng.pick(&[' ', ' ', ' ', '-', '_', '.', '\u{A0}']),
        2 => rng.pick(&['a', 'n', 'X', '7', '\u{E9}', '\u{178}', '\u{BD}']),
        // Short lines.
        3 if rng.one_in(5) => '\n',
        3 if rng.one_in(9) => rng.pick(&['\r', '\t', '\u{333}']),
        3 => rng.pick(&['a', 'b', ' ', '\u{FF}']),
        // Marks, in rows and after anything.
        4 if rng.one_in(2) => rng.pick(&['\u{300}', '\u{301}', '\u{333}']),
        4 => rng.pick(&['e', ' ', '\n', '\r', '\u{DF}']),
        // ASCII, with a stranger here and there.
        5 if rng.one_in(50) => member(rng),
        5 => char::from(b' ' + rng.below(95) as u8),
        // Lines with white space in front.
        6 if rng.one_in(4) => '\n',
        6 if !rng.one_in(3) => rng.pick(&[' ', ' ', ' ', '\t', '\r', '\u{A0}']),
        6 => rng.pick(&['a', '-', '\u{DF}']),
        // A single line.
        _ => rng.pick(&['a', 'b', ' ', '-', '\u{DF}', '\u{301}']),
    }
}

/// What stands behind the used part of a buffer: any bytes, at most `room`.
pub fn behind(rng: &mut Rng, room: usize) -> Vec<u8> {
    let few = rng.below(40);
    let count = rng.pick(&[0, 0, 1, 2, few, room]).min(room);
    (0..count).map(|_| rng.next() as u8).collect()
}

/// A boundary of a text, which may begin with a foreign byte: any, or one of its ends.
pub fn boundary(rng: &mut Rng, text: &[u8]) -> usize {
    let mut place = rng.below(text.len() + 1);
    if rng.one_in(8) {
        place = rng.pick(&[0, text.len()]);
    }
    while place > 0 && checks::splits(text, place) {
        place -= 1;
    }
    place
}

/// Fit arguments for a text of the repertoire, save that one place in eight is any number near it.
pub fn drawn_args(rng: &mut Rng, text: &[u8]) -> Args {
    let few = rng.below(30) as u16;
    let many = rng.next() as u16;
    let narrow = rng.below(30);
    let wide = rng.below(MAX_PROMPT + 1);
    let (start, end) = (drawn_place(rng, text), drawn_place(rng, text));
    let (little, amount) = (rng.below(9) as u8, rng.next() as u8);
    Args {
        n: rng.pick(&[0, 1, 1, 1, 2, 2, 3, 4, few, many, 65535]),
        pos: drawn_place(rng, text),
        prompt: rng.pick(&[0, 0, 0, 1, 2, narrow, wide, MAX_PROMPT]),
        mvt: known_code(rng, Param::Mvt),
        at: known_code(rng, Param::At),
        word: known_code(rng, Param::Word),
        search: known_code(rng, Param::Search),
        ch: sought(rng, text),
        action: known_code(rng, Param::Action),
        size: drawn_place(rng, text),
        start: start.min(end),
        end: start.max(end),
        buf: rng.pick(&SMALL_BUFS).into(),
        amount: rng.pick(&[0, 1, 1, 2, little, 31, 32, 33, amount, 255]),
        dedent: rng.pick(&[0, 0, 0, 1, 1, 255]),
        mark: 0,
    }
}

pub fn drawn_place(rng: &mut Rng, text: &[u8]) -> usize {
    if rng.one_in(8) { rng.below(text.len() + 3) } else { boundary(rng, text) }
}

fn known_code(rng: &mut Rng, param: Param) -> u32 {
    rng.below(last_code(param).unwrap() as usize + 1) as u32
}

/// A character to search for: mostly one that the text holds.
fn sought(rng: &mut Rng, text: &[u8]) -> u32 {
    let place = boundary(rng, text);
    match first_character(&text[place..]) {
        Some((c, _)) if !rng.one_in(6) => c,
        _ => member(rng) as u32,
    }
}

/// Bytes that are no text of the repertoire, by themselves or before whatever follows but a continuation byte.
#[rustfmt::skip]
pub const FOREIGN: [&[u8]; 40] = [
    // Overlong forms.
    b"\xC0\x80", b"\xC0\xAF", b"\xC1\xBF", b"\xE0\x80\x80", b"\xE0\x83\x9F", b"\xE0\x9F\xBF", b"\xF0\x80\x80\x80",
    b"\xF0\x8F\xBF\xBF",
    // Surrogates, and beyond 10FFFF.
    b"\xED\xA0\x80", b"\xED\xBF\xBF", b"\xF4\x90\x80\x80", b"\xF5\x80\x80\x80", b"\xFE", b"\xFF",
    // Cut characters and lone continuation bytes.
    b"\xC3", b"\xCC", b"\xE2", b"\xE2\x82", b"\xF0", b"\xF0\x9F\x98", b"\x80", b"\x9F", b"\xBF",
    // UTF-8, outside the repertoire.
    b"\x00", b"\x08", b"\x0B", b"\x1F", b"\x7F", b"\xC2\x80", b"\xC2\x9F", b"\xC2\xAD", b"\xC2\xB5", b"\xC4\x80",
    b"\xC5\xB7", b"\xC5\xB9", b"\xCB\xBF", b"\xCC\xB4", b"\xE2\x80\x8D", b"\xEE\x80\x80", b"\xF0\x9F\x98\x80",
];

/// A length that holds a whole block of any scan that takes many bytes at once.
pub const BLOCK: usize = 130;

/// Every place of a text of that length with each of the foreign bytes, and a turn for what they go through in turn.
pub fn foreign_places() -> impl Iterator<Item = (usize, &'static [u8], usize)> {
    let at = |place| FOREIGN.iter().enumerate().map(move |(number, &foreign)| (place, foreign, place + number));
    (0..BLOCK).flat_map(at)
}

/// Characters in two pieces.
const CUT: [(&[u8], &[u8]); 4] =
    [(b"\xC3", b"\x9F"), (b"\xCC", b"\x81"), (b"\xE2\x82", b"\xAC"), (b"\xF0\x9F\x98", b"\x80")];

/// Numbers that are no character of the repertoire.
#[rustfmt::skip]
pub const FOREIGN_CHARACTERS: [u32; 22] = [
    0x00, 0x08, 0x0B, 0x0C, 0x1F, 0x7F, 0x80, 0x9F, 0xAD, 0xB5, 0x100, 0x177, 0x179, 0x2FF, 0x334, 0xD800, 0xDFFF,
    0x10061, 0x1F600, 0x110000, 0x1000061, u32::MAX,
];

/// What can be wrong with an input, in the order in which it is put there: lengths last.
#[derive(Clone, Copy)]
pub enum Fault {
    /// A text that is not UTF-8 or is outside the repertoire.
    Text,
    /// A last character that the used length cuts, whole in the buffer.
    Cut,
    /// A cursor inside a character.
    Inside,
    /// A cursor beyond the text.
    Beyond,
    /// A place or a size among the arguments beyond the text or somewhere within it.
    Place,
    /// A number that names no movement, word rule, stop, search or case action.
    Code,
    /// A number that is no character of the repertoire.
    Character,
    /// A prompt column over 1,024.
    Prompt,
    /// C over 4,096.
    Size,
    /// A used length over the buffer.
    Used,
}

#[rustfmt::skip]
pub const FAULTS: [Fault; 10] = [
    Fault::Text, Fault::Cut, Fault::Inside, Fault::Beyond, Fault::Place, Fault::Code, Fault::Character, Fault::Prompt,
    Fault::Size, Fault::Used,
];

/// The parameters that are places or sizes.
const PLACES: [Param; 4] = [Param::Pos, Param::Size, Param::Start, Param::End];

/// An input on its way to being unfit.
pub struct Draft {
    pub buffer: Vec<u8>,
    pub len: usize,
    pub cursor: usize,
    pub args: Args,
}

impl Draft {
    /// Puts bytes into the used part; places behind them move along.
    fn put(&mut self, place: usize, bytes: &[u8]) {
        self.buffer.splice(place..place, bytes.iter().copied());
        self.len += bytes.len();
        for at in [&mut self.cursor, &mut self.args.pos] {
            if *at > place {
                *at = at.saturating_add(bytes.len());
            }
        }
    }

    /// A boundary in the used part.
    fn boundary(&self, rng: &mut Rng) -> usize {
        boundary(rng, &self.buffer[..self.len])
    }
}

/// Puts a fault into an input of a call that uses these parameters.
pub fn spoil(rng: &mut Rng, draft: &mut Draft, uses: &[Param], fault: Fault) {
    match fault {
        Fault::Text => {
            let place = draft.boundary(rng);
            draft.put(place, rng.pick(&FOREIGN));
        }
        Fault::Cut => {
            let (front, rest) = rng.pick(&CUT);
            draft.buffer.truncate(draft.len);
            draft.put(draft.len, front);
            draft.buffer.extend_from_slice(rest);
        }
        Fault::Inside => {
            let place = draft.boundary(rng);
            draft.put(place, rng.pick(&["\u{DF}", "\u{A0}", "\u{301}"]).as_bytes());
            draft.cursor = place + 1;
        }
        Fault::Beyond => draft.cursor = over(rng, draft.len),
        Fault::Place => {
            let places: Vec<Param> = uses.iter().copied().filter(|param| PLACES.contains(param)).collect();
            if !places.is_empty() {
                let within = rng.below(draft.len + 1);
                let beyond = over(rng, draft.len);
                draft.args = draft.args.clone().with(rng.pick(&places), rng.pick(&[within, beyond]));
            }
        }
        Fault::Code => {
            let codes: Vec<Param> = uses.iter().copied().filter(|&param| last_code(param).is_some()).collect();
            if !codes.is_empty() {
                let param = rng.pick(&codes);
                let code = over(rng, last_code(param).unwrap() as usize).min(u32::MAX as usize);
                draft.args = draft.args.clone().with(param, code);
            }
        }
        Fault::Character => draft.args.ch = rng.pick(&FOREIGN_CHARACTERS),
        Fault::Prompt => draft.args.prompt = over(rng, MAX_PROMPT),
        Fault::Size => {
            let more = rng.pick(&[1, 2, 904, 4096]);
            draft.buffer.resize(MAX_TEXT + more, b'a');
        }
        Fault::Used => draft.len = over(rng, draft.buffer.len()),
    }
}

/// A number over `limit`: mostly just over it.
pub fn over(rng: &mut Rng, limit: usize) -> usize {
    rng.pick(&[limit + 1, limit + 1, limit + 2, limit + 65536, usize::MAX])
}
