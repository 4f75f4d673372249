//! The measurements on one plan of 1,024 banks, with all ranks 0 and with random ranks: core edits,
//! checked edits, question 5, one read of all cells, and colourings from scratch; and checked edits
//! under caps, with all ranks 0. In turn, repeat by repeat.

use crate::clashes::{Clashes, Edit};
use crate::clock::timed;
use crate::effort::Effort;
use crate::library::{EditCalls, Memory, CHECKED, CORE};
use crate::scratch::Colouring;
use crate::{random_ranks_of, BANKS};
use independent::random::Random;
use std::ptr;

/// The cap that no plan passes.
const MOST_CAP: u16 = 24;

/// How many edits that pass the plan's waves are looked for.
const PASSING: usize = 100;

/// What was measured on one plan.
pub struct Measured {
    pub clashes: usize,
    pub ranks_0: OnPlan,
    pub ranked: OnPlan,
    pub caps: Caps,
}

/// With all ranks 0, or with random ranks.
pub struct OnPlan {
    pub waves: u16,
    pub reach: Reach,
    pub times: Times,
}

/// The reach of the edits of a batch.
pub struct Reach {
    pub average_trail: f64,
    pub average_moved: f64,
    pub longest_trail: u16,
    /// The most waves before, between and after them.
    pub most_waves: u16,
}

/// Processor times of one call, in seconds, by repeat.
#[derive(Default)]
pub struct Times {
    pub core: Vec<f64>,
    pub checked: Vec<f64>,
    pub question: Vec<f64>,
    /// One read of all cells of the plan.
    pub read: Vec<f64>,
    pub counting_sort: Vec<f64>,
    pub standard_sort: Vec<f64>,
    pub whole_plan: Vec<f64>,
}

/// Checked edits under caps. Refused are edits that lead to more waves than the plan has; they are
/// compared with the same edits at cap 24, each followed by its inverse.
pub struct Caps {
    /// The cap of the accepted edits: the most waves of a batch.
    pub cap: u16,
    pub accepted: Vec<f64>,
    passing: Vec<Edit>,
    pub average_trail: f64,
    pub refused: Vec<f64>,
    pub same_made: Vec<f64>,
}

impl Caps {
    /// How many edits are refused in turn.
    pub fn passing(&self) -> usize {
        self.passing.len()
    }
}

impl Measured {
    pub fn average_degree(&self) -> f64 {
        2.0 * self.clashes as f64 / BANKS as f64
    }
}

/// Measures on a random plan of so many clashes.
pub fn measure(effort: &Effort, clashes: usize) -> Measured {
    let mut random = Random::new(clashes as u64);
    let mut drawn = Clashes::drawn(&mut random, BANKS, clashes);
    let edits = batch(&mut random, &mut drawn, effort.edits);
    let ranks = random_ranks_of(&mut random, BANKS);
    let mut plan = Subject::new(&drawn, &[0; BANKS], &edits);
    let mut ranked = Subject::new(&drawn, &ranks, &edits);
    let mut caps = Caps::new(&mut random, effort, &drawn, &mut plan);
    for _ in 0..effort.repeats {
        plan.time_core(&edits);
        ranked.time_core(&edits);
        plan.time_scratch(effort);
        ranked.time_scratch(effort);
        plan.time_checked(effort, &edits);
        caps.time(&mut plan, &edits);
        ranked.time_checked(effort, &edits);
    }
    Measured {
        clashes,
        ranks_0: plan.measured(),
        ranked: ranked.measured(),
        caps,
    }
}

/// A plan on which calls are timed.
struct Subject {
    memory: Memory,
    /// The plan before and after each batch.
    start: Memory,
    colouring: Colouring,
    reach: Reach,
    times: Times,
}

impl Subject {
    /// The plan of the clashes with these ranks, after one batch that is not timed.
    fn new(clashes: &Clashes, ranks: &[u16], edits: &[Edit]) -> Subject {
        let mut memory = Memory::of(clashes, ranks);
        let start = memory.clone();
        let reach = reach_of(&mut memory, edits);
        let subject = Subject {
            memory,
            start,
            colouring: Colouring::new(ranks),
            reach,
            times: Times::default(),
        };
        subject.is_back();
        subject
    }

    fn is_back(&self) {
        assert!(self.memory.same_plan(&self.start), "the inverses lead back");
    }

    fn time_core(&mut self, edits: &[Edit]) {
        let core = timed(edits.len(), || make_all(&mut self.memory, edits, CORE));
        self.times.core.push(core);
        self.is_back();
    }

    fn time_checked(&mut self, effort: &Effort, edits: &[Edit]) {
        let checked = timed(edits.len(), || make_all(&mut self.memory, edits, CHECKED));
        self.times.checked.push(checked);
        let question = question_time(&mut self.memory, effort.tests);
        self.times.question.push(question);
        let read = read_time(&self.memory, effort.tests);
        self.times.read.push(read);
        self.is_back();
    }

    /// The colourings, each of which must give the plan's waves, and the last one Counts and tally too.
    fn time_scratch(&mut self, effort: &Effort) {
        let (memory, colouring) = (&self.memory, &mut self.colouring);
        let mut time = |colour: fn(&mut Colouring, &[u16], &[u16])| {
            let time = timed(effort.tests, || {
                for _ in 0..effort.tests {
                    colour(colouring, &memory.neighbours, &memory.degrees);
                }
            });
            let waves = colouring.waves.iter().map(|&wave| u16::from(wave));
            assert!(waves.eq(memory.waves.iter().copied()));
            time
        };
        let times = &mut self.times;
        times.counting_sort.push(time(Colouring::by_counting_sort));
        times.standard_sort.push(time(Colouring::by_standard_sort));
        times.whole_plan.push(time(Colouring::whole_plan));
        assert!(colouring.counts == memory.counts && colouring.tally == memory.tally[1..3]);
    }

    fn measured(self) -> OnPlan {
        OnPlan {
            waves: self.memory.tally[2],
            reach: self.reach,
            times: self.times,
        }
    }
}

/// The time of question 5.
pub fn question_time(memory: &mut Memory, tests: usize) -> f64 {
    timed(tests, || {
        for b in 0..tests {
            memory.wave_of((b % memory.waves.len()) as u16);
        }
    })
}

/// The time of one read of all cells of the plan, which adds them up.
pub fn read_time(memory: &Memory, tests: usize) -> f64 {
    let sum = memory.sum();
    timed(tests, || {
        for _ in 0..tests {
            // Sound: it is a reference that is read. The compiler does not know which, and so cannot
            // take the sum of the read before.
            let memory = unsafe { ptr::read_volatile(&memory) };
            assert_eq!(memory.sum(), sum);
        }
    })
}

impl Caps {
    /// The cap of a batch, and edits from the plan that is there between batches.
    fn new(random: &mut Random, effort: &Effort, clashes: &Clashes, plan: &mut Subject) -> Caps {
        let cap = plan.reach.most_waves;
        assert!(cap < MOST_CAP, "a cap that is asked about");
        let tries = effort.tries;
        let (passing, average_trail) = passing(random, tries, clashes, &mut plan.memory);
        plan.is_back();
        Caps {
            cap,
            accepted: Vec::new(),
            passing,
            average_trail,
            refused: Vec::new(),
            same_made: Vec::new(),
        }
    }

    fn time(&mut self, plan: &mut Subject, edits: &[Edit]) {
        let memory = &mut plan.memory;
        memory.set_cap(self.cap);
        let count = edits.len();
        let accepted = timed(count, || make_all(memory, edits, CHECKED));
        self.accepted.push(accepted);
        if !self.passing.is_empty() {
            memory.set_cap(memory.tally[2]);
            let again = || self.passing.iter().copied().cycle();
            let refused = timed(count, || {
                again().take(count).for_each(|edit| refuse(memory, edit));
            });
            memory.set_cap(MOST_CAP);
            let made = timed(count, || {
                for edit in again().take(count / 2) {
                    make(memory, edit, CHECKED);
                    make(memory, edit.inverse(), CHECKED);
                }
            });
            self.refused.push(refused);
            self.same_made.push(made);
        }
        memory.set_cap(MOST_CAP);
        plan.is_back();
    }
}

/// Edits after which the plan has more waves, and their average trail. Tried are random edits, then adds
/// of two banks of the highest wave. The memory ends as it was, but for trail and moved.
fn passing(
    random: &mut Random,
    tries: usize,
    clashes: &Clashes,
    memory: &mut Memory,
) -> (Vec<Edit>, f64) {
    let highest = memory.tally[2] - 1;
    let top: Vec<u16> = (0..BANKS as u16)
        .filter(|&b| memory.waves[usize::from(b)] == highest)
        .filter(|&b| clashes.row(b).len() < 23)
        .collect();
    let pairs = (0..top.len()).flat_map(|i| (0..i).map(move |j| (i, j)));
    let within: Vec<Edit> = pairs.map(|(i, j)| Edit::Add(top[i], top[j])).collect();
    let mut drawn = || match random.below(2) {
        0 => clashes.random_add(random),
        _ => clashes.random_strike(random),
    };
    let drawn = std::iter::from_fn(|| Some(drawn())).take(tries);
    let (mut passing, mut trail) = (Vec::new(), 0);
    for edit in drawn.chain(within) {
        make(memory, edit, CORE);
        if memory.tally[2] > highest + 1 {
            passing.push(edit);
            trail += usize::from(memory.result[1]);
        }
        make(memory, edit.inverse(), CORE);
        if passing.len() == PASSING {
            break;
        }
    }
    let average = trail as f64 / passing.len().max(1) as f64;
    (passing, average)
}

/// So many edits of a batch. The clashes end as they were.
fn batch(random: &mut Random, clashes: &mut Clashes, count: usize) -> Vec<Edit> {
    let mut edits = Vec::with_capacity(count);
    for place in 0..count / 2 {
        let edit = match place % 2 {
            0 => clashes.random_add(random),
            _ => clashes.random_strike(random),
        };
        clashes.make(edit);
        edits.push(edit);
    }
    for place in (0..count / 2).rev() {
        let edit = edits[place].inverse();
        clashes.make(edit);
        edits.push(edit);
    }
    edits
}

fn make_all(memory: &mut Memory, edits: &[Edit], calls: EditCalls) {
    for &edit in edits {
        make(memory, edit, calls);
    }
}

pub fn make(memory: &mut Memory, edit: Edit, calls: EditCalls) {
    match edit {
        Edit::Add(a, b) => memory.edit(calls.add, a, b),
        Edit::Strike(a, b) => memory.edit(calls.strike, a, b),
    }
}

fn refuse(memory: &mut Memory, edit: Edit) {
    match edit {
        Edit::Add(a, b) => memory.refused_edit(CHECKED.add, a, b),
        Edit::Strike(a, b) => memory.refused_edit(CHECKED.strike, a, b),
    }
}

/// Makes the edits once, untimed, core and checked side by side, and notes their reach.
fn reach_of(memory: &mut Memory, edits: &[Edit]) -> Reach {
    let mut checked = memory.clone();
    let (mut trail, mut moved, mut longest_trail) = (0, 0, 0);
    let mut most_waves = memory.tally[2];
    for &edit in edits {
        make(memory, edit, CORE);
        make(&mut checked, edit, CHECKED);
        let same = memory.same_edit(&checked);
        assert!(same, "core and checked edits do the same");
        moved += usize::from(memory.result[0]);
        trail += usize::from(memory.result[1]);
        longest_trail = longest_trail.max(memory.result[1]);
        most_waves = most_waves.max(memory.tally[2]);
    }
    Reach {
        average_trail: trail as f64 / edits.len() as f64,
        average_moved: moved as f64 / edits.len() as f64,
        longest_trail,
        most_waves,
    }
}
