//! What the tests share.
#![allow(dead_code)]
use tulofewa::{At, CharSearch, EditLine, Movement, Room, Word, WordAction};

/// A line with ample room.
pub fn line(text: &str, cursor: usize) -> EditLine {
    line_in(Room::default(), text, cursor)
}

pub fn line_in(room: Room, text: &str, cursor: usize) -> EditLine {
    let mut line = EditLine::new(room).unwrap();
    line.start(text, cursor).unwrap();
    line
}

pub fn undo_words(line: &EditLine) -> Vec<String> {
    line.undo_list().map(|change| change.to_string()).collect()
}

/// All of a line but the cursor: text, level, both lists.
pub fn text_and_log(line: &EditLine) -> String {
    let lists = (line.undo_list().collect::<Vec<_>>(), line.redo_list().collect::<Vec<_>>());
    format!("{:?} {} {lists:?}", line.text(), line.level())
}

/// splitmix64.
pub struct Rng(pub u64);

impl Rng {
    pub fn next(&mut self) -> u64 {
        self.0 = self.0.wrapping_add(0x9E37_79B9_7F4A_7C15);
        let mut z = self.0;
        z = (z ^ z >> 30).wrapping_mul(0xBF58_476D_1CE4_E5B9);
        z = (z ^ z >> 27).wrapping_mul(0x94D0_49BB_1331_11EB);
        z ^ z >> 31
    }

    /// A number from 0 to `count` - 1.
    pub fn below(&mut self, count: usize) -> usize {
        (self.next() % count as u64) as usize
    }

    pub fn pick<T: Copy>(&mut self, from: &[T]) -> T {
        from[self.below(from.len())]
    }

    /// Letters and white space of one and two bytes, a digit, "_", others, a mark, the three that clusters break around,
    /// and once in a while a character outside the repertoire.
    pub fn character(&mut self) -> char {
        const MEMBERS: [char; 14] =
            ['a', 'B', '7', ' ', '-', '_', '\t', '\r', '\n', '\u{A0}', '\u{DF}', '\u{E9}', '\u{FF}', '\u{301}'];
        if self.below(40) == 0 {
            '\u{4E2D}'
        } else {
            self.pick(&MEMBERS)
        }
    }

    pub fn text(&mut self) -> String {
        (0..self.below(6)).map(|_| self.character()).collect()
    }

    /// A key, or bytes that are none: now and then some byte, before the end of it or behind it.
    pub fn key(&mut self) -> Vec<u8> {
        const KEYS: [&[u8]; 8] = [b"\x04", b"\x0b", b"\x17", b"\x19", b"\x19", b"\x1by", b"\x1b2\x1by", b"\x1b3\x1f"];
        let mut key = match self.below(3) {
            0 => self.character().to_string().into_bytes(),
            _ => self.pick(&KEYS).to_vec(),
        };
        if self.below(5) == 0 {
            key.insert(self.below(key.len() + 1), self.next() as u8);
        }
        key
    }

    /// A repeat count, mostly small.
    pub fn count(&mut self) -> u16 {
        self.pick(&[0, 1, 1, 1, 2, 3, 5, u16::MAX])
    }

    /// A place of a text of `len` bytes, or beyond it.
    pub fn place(&mut self, len: usize) -> usize {
        if self.below(30) == 0 {
            usize::MAX - self.below(3)
        } else {
            self.below(len + 3)
        }
    }

    pub fn word(&mut self) -> Word {
        self.pick(&[Word::Big, Word::Emacs, Word::Vi])
    }

    pub fn at(&mut self) -> At {
        self.pick(&[At::Start, At::BeforeEnd, At::AfterEnd])
    }

    pub fn action(&mut self) -> WordAction {
        self.pick(&[WordAction::Capitalize, WordAction::Lowercase, WordAction::Uppercase])
    }

    pub fn search(&mut self) -> CharSearch {
        let of = self.pick(&[
            CharSearch::Forward as fn(char) -> CharSearch,
            CharSearch::ForwardBefore,
            CharSearch::Backward,
            CharSearch::BackwardAfter,
        ]);
        of(self.character())
    }

    pub fn movement(&mut self) -> Movement {
        let n = self.count();
        match self.below(14) {
            0 => Movement::WholeLine,
            1 => Movement::BeginningOfLine,
            2 => Movement::EndOfLine,
            3 => Movement::BackwardWord(n, self.word()),
            4 => Movement::ForwardWord(n, self.at(), self.word()),
            5 => Movement::ViCharSearch(n, self.search()),
            6 => Movement::ViFirstPrint,
            7 => Movement::BackwardChar(n),
            8 => Movement::ForwardChar(n),
            9 => Movement::LineUp(n),
            10 => Movement::LineDown(n),
            11 => Movement::WholeBuffer,
            12 => Movement::BeginningOfBuffer,
            _ => Movement::EndOfBuffer,
        }
    }
}
