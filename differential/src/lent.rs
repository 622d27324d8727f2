//! A buffer lent to the library, between guard bytes.

const GUARD: usize = 32;
/// In front stand lead bytes, behind continuation bytes: a call that looked beyond its buffer would see one character
/// too many, or a whole one where one was cut.
const IN_FRONT: u8 = 0xC3;
const BEHIND: u8 = 0x9F;

pub struct Lent {
    arena: Vec<u8>,
    before: Vec<u8>,
    start: usize,
}

impl Lent {
    /// The guard in front is longer for some sizes than for others, so that buffers start at any alignment.
    pub fn new(buffer: &[u8]) -> Lent {
        let start = GUARD + buffer.len() % 16;
        let mut arena = vec![IN_FRONT; start];
        arena.extend_from_slice(buffer);
        arena.resize(arena.len() + GUARD, BEHIND);
        let before = arena.clone();
        Lent { arena, before, start }
    }

    /// C, the length of the buffer.
    pub fn size(&self) -> usize {
        self.before.len() - self.start - GUARD
    }

    /// What was lent.
    pub fn bytes(&self) -> &[u8] {
        &self.before[self.start..][..self.size()]
    }

    /// What stands there now.
    pub fn now(&self) -> &[u8] {
        &self.arena[self.start..][..self.size()]
    }

    /// Where the buffer starts: never null, with length 0 either.
    pub fn pointer(&mut self) -> *mut u8 {
        self.arena[self.start..].as_mut_ptr()
    }

    /// The place, counted from the buffer's start, of the first byte that is no longer what it was.
    pub fn changed(&self) -> Option<isize> {
        if self.arena == self.before {
            return None;
        }
        let place = self.arena.iter().zip(&self.before).position(|(now, then)| now != then)?;
        Some(place as isize - self.start as isize)
    }

    /// The place, counted from the buffer's start, of the first byte that is not as it should be: of the used part that
    /// is due, or of the guards. Bytes past the used part are the library's own.
    pub fn differs(&self, due: &[u8]) -> Option<isize> {
        self.differs_in([(0, due)].into_iter())
    }

    /// The same of several parts that are due, each at its place: bytes in no part are the library's own.
    pub fn differs_in<'a>(&self, mut due: impl Iterator<Item = (usize, &'a [u8])>) -> Option<isize> {
        let behind = self.start + self.size();
        let first = |from: usize, due: &[u8]| {
            let now = &self.arena[from..];
            if now.starts_with(due) {
                return None;
            }
            let place = now.iter().zip(due).position(|(now, then)| now != then).unwrap_or(now.len());
            Some((from + place) as isize - self.start as isize)
        };
        due.find_map(|(place, part)| first(self.start + place, part))
            .or_else(|| first(0, &self.before[..self.start]))
            .or_else(|| first(behind, &self.before[behind..]))
    }

    /// What stands there now is what is lent next.
    pub fn keep(&mut self) {
        self.before.copy_from_slice(&self.arena);
    }

    /// Puts bytes there, as part of what is lent.
    pub fn put(&mut self, place: usize, bytes: &[u8]) {
        for arena in [&mut self.arena, &mut self.before] {
            arena[self.start + place..][..bytes.len()].copy_from_slice(bytes);
        }
    }

    /// A buffer of at least this size, with this byte behind what was lent.
    pub fn grow(&mut self, size: usize, behind: u8) {
        let mut buffer = self.bytes().to_vec();
        buffer.resize(size.max(buffer.len()), behind);
        *self = Lent::new(&buffer);
    }
}
