//! How often things are measured.

#[derive(Clone, Copy)]
pub struct Effort {
    /// Repeats of everything that is timed within this program.
    pub repeats: usize,
    /// The edits of one batch: half of them, adds and strikes in turn, and then their inverses in
    /// reverse, so that a batch ends in the plan that it started from.
    pub edits: usize,
    /// The question-5 tests of one batch, and the colourings of one batch.
    pub tests: usize,
    /// Among how many random edits at most those are looked for that pass the plan's waves.
    pub tries: usize,
    /// How often each program is run, the model aside.
    pub runs: usize,
    /// How often the model is run.
    pub model_runs: usize,
    /// The lists of a night, and how often they are run on one core and on two.
    pub lists: usize,
    pub nights: usize,
}

/// What the figures of docs/BENCHMARKS.md are from.
pub const FULL: Effort = Effort {
    repeats: 25,
    edits: 1000,
    tests: 200,
    tries: 100_000,
    runs: 15,
    model_runs: 5,
    lists: 10_000,
    nights: 3,
};

/// Everything once or a few times, for work on the benchmarks: its figures are of no worth.
pub const QUICK: Effort = Effort {
    repeats: 3,
    edits: 200,
    tests: 20,
    tries: 2000,
    runs: 2,
    model_runs: 1,
    lists: 200,
    nights: 1,
};
