//! A list of calls, with what stands between them, played step by step. What a step is each kind of list says.

/// A step of a list.
pub trait Play: Clone {
    /// The sizes of the buffers.
    type Sizes: Copy + AsMut<[usize]>;
    /// What is lent from step to step, with the Rust's own of it.
    type Case;
    /// What else is known of the steps so far.
    type Conditions: Default;
    type Difference;

    /// Where a list starts, in buffers of these sizes.
    fn start(sizes: Self::Sizes) -> Self::Case;

    /// A call gives its number.
    fn play(&self, case: &mut Self::Case, conditions: &mut Self::Conditions) -> Result<Option<u32>, Self::Difference>;

    /// The tally's row of the call that it makes.
    fn tally_row(&self) -> Option<usize>;

    /// Whether the library is asked.
    fn asks(&self) -> bool {
        self.tally_row().is_some()
    }
}

/// The sizes of the buffers, and the steps from the start on.
#[derive(Clone)]
pub struct List<S: Play> {
    pub sizes: S::Sizes,
    pub steps: Vec<S>,
}

/// A list as far as it was played, and what it has left.
pub struct Played<S: Play> {
    pub list: List<S>,
    pub case: S::Case,
    pub conditions: S::Conditions,
}

impl<S: Play> Played<S> {
    pub fn new(sizes: S::Sizes) -> Played<S> {
        let list = List { sizes, steps: Vec::new() };
        Played { list, case: S::start(sizes), conditions: S::Conditions::default() }
    }

    /// One step on. A call gives its number.
    pub fn step(&mut self, step: S) -> Result<Option<u32>, S::Difference> {
        let outcome = step.play(&mut self.case, &mut self.conditions);
        self.list.steps.push(step);
        outcome
    }
}
