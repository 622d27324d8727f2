//! Timings: medians, and what is compared by turns.
use crate::batches::{Batch, Played, given, play};
use crate::editor::Editor;

pub const TIMINGS: usize = 41;

/// The median, the least and the most of some numbers, in nanoseconds.
#[derive(Clone, Copy)]
pub struct Figure {
    pub median: f64,
    pub least: f64,
    pub most: f64,
}

impl Figure {
    pub const NONE: Figure = Figure { median: f64::NAN, least: f64::NAN, most: f64::NAN };

    pub fn of(mut all: Vec<f64>) -> Figure {
        all.sort_by(f64::total_cmp);
        Figure { median: all[all.len() / 2], least: all[0], most: all[all.len() - 1] }
    }

    /// Of several runs: the median of their medians, the least and the most of them. Of one run: that run's.
    pub fn of_runs(runs: &[Figure]) -> Figure {
        if let [run] = runs { *run } else { Figure::of(runs.iter().map(|run| run.median).collect()) }
    }

    /// The same of one of so many parts.
    pub fn by(&self, parts: f64) -> Figure {
        Figure { median: self.median / parts, least: self.least / parts, most: self.most / parts }
    }
}

/// C's timespec.
#[repr(C)]
#[derive(Default)]
struct Time {
    seconds: i64,
    nanoseconds: i64,
}

unsafe extern "C" {
    fn clock_gettime(clock: i32, time: *mut Time) -> i32;
}

/// The processor time of this thread in nanoseconds: what other programs take of the machine is not in it.
fn now() -> f64 {
    const CLOCK_THREAD_CPUTIME_ID: i32 = 3;
    let mut time = Time::default();
    // SAFETY: a record to be written.
    assert_eq!(unsafe { clock_gettime(CLOCK_THREAD_CPUTIME_ID, &mut time) }, 0);
    time.seconds as f64 * 1e9 + time.nanoseconds as f64
}

fn nanoseconds(call: impl FnOnce()) -> f64 {
    let began = now();
    call();
    now() - began
}

/// What the clock itself takes now: it is taken off a timing that follows.
fn clock() -> f64 {
    Figure::of((0..15).map(|_| nanoseconds(|| ())).collect()).median
}

/// What is short is done again and again for one timing, up to 20 µs and no more often than `most`.
fn rounds(took: f64, most: f64) -> usize {
    (20_000.0 / (took - clock()).max(1.0)).ceil().clamp(1.0, most) as usize
}

/// Something that is timed, and by what its nanoseconds are divided.
pub struct Check<'a> {
    pub call: Box<dyn Fn() -> bool + 'a>,
    pub by: usize,
}

/// These by turns: they change nothing, so that they can be called again.
pub fn checks<const N: usize>(all: [Check; N]) -> [Figure; N] {
    let rounds = all.each_ref().map(|check| rounds(nanoseconds(|| assert!((check.call)())), 1_000.0));
    let mut timings = [(); N].map(|_| Vec::new());
    for _ in 0..TIMINGS {
        for (i, check) in all.iter().enumerate() {
            let clock = clock();
            let took = nanoseconds(|| (0..rounds[i]).for_each(|_| assert!((check.call)())));
            timings[i].push((took - clock) / (rounds[i] * check.by) as f64);
        }
    }
    timings.map(Figure::of)
}

/// A batch of calls on one side.
pub struct Side<E> {
    batch: Batch,
    size: usize,
    given: String,
    /// The state that each batch starts from.
    from: E,
    e: E,
    rounds: usize,
    timings: Vec<f64>,
}

impl<E: Editor> Side<E> {
    pub fn new(batch: Batch, size: usize, from: E) -> Side<E> {
        let (given, e) = (given(batch, size), E::new(""));
        let mut side = Side { batch, size, given, from, e, rounds: 1, timings: Vec::new() };
        side.rounds = rounds(side.once().0, 64.0);
        side
    }

    /// The batch once, from its state: what it took without the restoring.
    fn once(&mut self) -> (f64, Played) {
        self.e.restore(&self.from);
        let mut played = Played { calls: 0, done: 0 };
        let took = nanoseconds(|| played = play(self.batch, self.size, &self.given, &mut self.e));
        (took, played)
    }

    /// One timing: nanoseconds a call.
    fn time(&mut self) {
        let (clock, mut all, mut calls) = (clock(), 0.0, 0);
        for _ in 0..self.rounds {
            let (took, played) = self.once();
            all += took - clock;
            calls += played.calls;
        }
        self.timings.push(all / calls as f64);
    }
}

/// The same batch on both sides, or on the library's alone.
pub struct Pair<L, R> {
    pub of: String,
    pub library: Side<L>,
    pub rust: Option<Side<R>>,
}

impl<L: Editor, R: Editor> Pair<L, R> {
    /// Every call is done, and both sides leave the same.
    fn look(&mut self) {
        let of = &self.of;
        let (_, Played { calls, done }) = self.library.once();
        assert!(done == calls, "{of}: the library did {done} of {calls} calls");
        let Some(rust) = &mut self.rust else { return };
        let (_, Played { calls, done }) = rust.once();
        assert!(done == calls, "{of}: rustyline did {done} of {calls} calls");
        let differences = self.library.e.state().differences(&rust.e.state());
        assert!(differences.is_empty(), "{of}: the two sides leave another {}", differences.join(", "));
    }

    fn time(&mut self, library_first: bool) {
        if library_first {
            self.library.time();
        }
        if let Some(rust) = &mut self.rust {
            rust.time();
        }
        if !library_first {
            self.library.time();
        }
    }

    fn figures(self) -> [Figure; 2] {
        [Figure::of(self.library.timings), self.rust.map_or(Figure::NONE, |rust| Figure::of(rust.timings))]
    }
}

/// All of these by turns, after a look at each.
pub fn by_turns<L: Editor, R: Editor>(mut pairs: Vec<Pair<L, R>>) -> impl Iterator<Item = Figure> {
    pairs.iter_mut().for_each(Pair::look);
    for turn in 0..TIMINGS {
        pairs.iter_mut().for_each(|pair| pair.time(turn % 2 == 0));
    }
    pairs.into_iter().flat_map(Pair::figures)
}
