//! How times grow: of a core edit with its trail, of a list with its rows, of question 5 with banks
//! and clashes.

use crate::clashes::{Clashes, Edit};
use crate::clock::timed;
use crate::edits::{make, question_time, read_time};
use crate::effort::Effort;
use crate::fit::{distance, Line, Two};
use crate::library::{Memory, CORE};
use crate::lists::{first_rows, list_of_60_000_bytes, steady_list, Depot};
use crate::spread::Spread;
use crate::{random_ranks_of, BANKS, TRAIL_40};
use independent::random::Random;
use std::time::Instant;

/// Points measured one after the other, repeat by repeat: where each stands, and its times in seconds.
pub struct Curve {
    pub name: &'static str,
    places: Vec<f64>,
    times: Vec<Vec<f64>>,
}

impl Curve {
    fn new(name: &'static str, places: Vec<f64>) -> Curve {
        let times = places.iter().map(|_| Vec::new()).collect();
        Curve {
            name,
            places,
            times,
        }
    }

    /// Where each point stands, and the median of its times.
    pub fn points(&self) -> Vec<(f64, f64)> {
        let median = |times: &Vec<f64>| Spread::of(times.iter().copied()).median;
        let medians = self.times.iter().map(median);
        self.places.iter().copied().zip(medians).collect()
    }

    pub fn line(&self) -> Line {
        Line::through(&self.points())
    }

    /// How far the points are from the line on average.
    pub fn distance(&self) -> f64 {
        let line = self.line();
        distance(self.points().into_iter().map(|(x, y)| (line.at(x), y)))
    }
}

/// What was measured.
pub struct Growth {
    /// With all ranks 0, and with random ranks.
    pub edits: [Curve; 2],
    pub steady_lists: [Curve; 2],
    pub long_list: LongList,
    pub banks: Questions,
    pub clashes: Questions,
}

/// The rows of the list of 60,000 bytes, from the first on: what they take, and the banks that they
/// take up.
pub struct LongList {
    pub curve: Curve,
    trails: Vec<f64>,
}

impl LongList {
    fn points(&self) -> Vec<([f64; 2], f64)> {
        let points = self.curve.points().into_iter().zip(&self.trails);
        points.map(|((x, y), &trail)| ([x, trail], y)).collect()
    }

    /// So much a row, and so much a bank taken up.
    pub fn two(&self) -> Two {
        Two::through(&self.points())
    }

    /// How far the points are from what these say, on average.
    pub fn distance(&self) -> f64 {
        let two = self.two();
        distance(self.points().into_iter().map(|(x, y)| (two.at(x), y)))
    }

    /// What these say, at each point.
    pub fn followed(&self) -> Vec<(f64, f64)> {
        let two = self.two();
        let points = self.points().into_iter();
        points.map(|(x, _)| (x[0], two.at(x))).collect()
    }
}

/// Question 5 with all ranks 0 and with random ranks, and one read of all cells.
pub struct Questions {
    pub question: [Curve; 2],
    pub read: Curve,
}

const RANKS_0: &str = "ranks 0";
const RANDOM: &str = "random ranks";
const BOTH: [&str; 2] = [RANKS_0, RANDOM];

/// The edits of the first plot, among how many they are picked, and how often as many as the repeats
/// each is timed.
const EDITS: usize = 60;
const DRAWN: usize = 4000;
const TIMES: usize = 8;

/// The clashes of the steady lists, which the first rows add; and the steps by rows.
pub const STEADY: usize = 2048;
const STEPS: usize = 256;
const TO: usize = 4608;

/// The parts of the list of 60,000 bytes.
const PARTS: usize = 12;

/// The steps by banks and by clashes.
const STEP: usize = 128;
const CLASH_STEP: usize = 1024;

pub fn measure(effort: &Effort) -> Growth {
    let mut random = Random::new(4096);
    let ranks = random_ranks_of(&mut random, BANKS);
    let drawn = Clashes::drawn(&mut random, BANKS, TRAIL_40);
    let [zero, any] = [&[0; BANKS][..], &ranks];
    let banks: Vec<usize> = (STEP..=BANKS).step_by(STEP).collect();
    let by_banks = banks.iter().map(|&n| (n, n * TRAIL_40 / BANKS)).collect();
    let clashes = (0..=10 * CLASH_STEP).step_by(CLASH_STEP);
    let by_clashes = clashes.map(|clashes| (BANKS, clashes)).collect();
    Growth {
        edits: [
            edits(effort, &mut random, &drawn, zero, RANKS_0),
            edits(effort, &mut random, &drawn, any, RANDOM),
        ],
        steady_lists: [
            steady_lists(effort, &[], RANKS_0),
            steady_lists(effort, any, RANDOM),
        ],
        long_list: long_list(effort),
        banks: questions(effort, by_banks, |&(banks, _)| banks),
        clashes: questions(effort, by_clashes, |&(_, clashes)| clashes),
    }
}

/// Edits of one plan, each timed together with its inverse. They are picked so that their trails, the
/// mean of the two, are spread over the whole span. Between two timings of one edit all others are made,
/// so that none is made on its own cache and branches.
fn edits(
    effort: &Effort,
    random: &mut Random,
    clashes: &Clashes,
    ranks: &[u16],
    name: &'static str,
) -> Curve {
    let mut memory = Memory::of(clashes, ranks);
    let start = memory.clone();
    let picked = spread_out(drawn_edits(random, clashes, &mut memory));
    let mut curve = Curve::new(name, picked.iter().map(|&(trail, _)| trail).collect());
    for _ in 0..TIMES * effort.repeats {
        for (&(_, edit), times) in picked.iter().zip(&mut curve.times) {
            let began = Instant::now();
            make(&mut memory, edit, CORE);
            make(&mut memory, edit.inverse(), CORE);
            times.push(began.elapsed().as_secs_f64() / 2.0);
        }
    }
    assert!(memory.same_plan(&start), "the inverses lead back");
    curve
}

/// Random edits of the plan, by the mean of their trail and their inverse's.
fn drawn_edits(random: &mut Random, clashes: &Clashes, memory: &mut Memory) -> Vec<(f64, Edit)> {
    let mut drawn = Vec::new();
    for _ in 0..DRAWN {
        let edit = match random.below(2) {
            0 => clashes.random_add(random),
            _ => clashes.random_strike(random),
        };
        let mut trail = |edit| {
            make(memory, edit, CORE);
            f64::from(memory.result[1])
        };
        let there = trail(edit);
        let back = trail(edit.inverse());
        drawn.push(((there + back) / 2.0, edit));
    }
    drawn.sort_by(|one, other| one.0.partial_cmp(&other.0).expect("numbers"));
    drawn
}

/// Of edits by their trail those that are nearest to even steps from the shortest to the longest.
fn spread_out(mut edits: Vec<(f64, Edit)>) -> Vec<(f64, Edit)> {
    let (shortest, longest) = (edits[0].0, edits[edits.len() - 1].0);
    let mut picked = Vec::new();
    for step in 0..EDITS {
        let sought = shortest + (longest - shortest) * step as f64 / (EDITS - 1) as f64;
        let far = |place: &usize| (edits[*place].0 - sought).abs();
        let nearer = |one: &usize, other: &usize| far(one).partial_cmp(&far(other));
        let places = 0..edits.len();
        let place = places.min_by(|one, other| nearer(one, other).expect("numbers"));
        picked.push(edits.remove(place.expect("edits")));
    }
    picked
}

/// The first rows of a list that adds clashes and then strikes and adds in turn.
fn steady_lists(effort: &Effort, ranks: &[u16], name: &'static str) -> Curve {
    let list = steady_list(ranks, STEADY);
    let rows: Vec<usize> = (STEADY..=TO).step_by(STEPS).collect();
    let lists: Vec<&[u8]> = rows
        .iter()
        .map(|edits| first_rows(&list, 1 + ranks.len() + edits))
        .collect();
    list_curve(effort, name, &rows, &lists)
}

fn long_list(effort: &Effort) -> LongList {
    let list = list_of_60_000_bytes(&[]);
    let depot = Depot::of(&list);
    let rows: Vec<usize> = (1..=PARTS)
        .map(|part| depot.edits.len() * part / PARTS)
        .collect();
    let lists: Vec<&[u8]> = rows.iter().map(|&n| first_rows(&list, 1 + n)).collect();
    let mut memory = Memory::opened(&depot.ranks);
    let trails: Vec<f64> = depot
        .edits
        .iter()
        .map(|row| trail(&mut memory, row))
        .collect();
    LongList {
        curve: list_curve(effort, RANKS_0, &rows, &lists),
        trails: rows.iter().map(|&n| trails[..n].iter().sum()).collect(),
    }
}

/// How many banks the edits take up.
fn trail(memory: &mut Memory, edits: &[Edit]) -> f64 {
    let taken = edits.iter().map(|&edit| {
        make(memory, edit, CORE);
        f64::from(memory.result[1])
    });
    taken.sum()
}

fn list_curve(effort: &Effort, name: &'static str, rows: &[usize], lists: &[&[u8]]) -> Curve {
    let mut curve = Curve::new(name, rows.iter().map(|&rows| rows as f64).collect());
    let mut memory = Memory::opened(&[0; BANKS]);
    for _ in 0..effort.repeats {
        for (list, times) in lists.iter().zip(&mut curve.times) {
            times.push(timed(1, || memory.read_list(list)));
        }
    }
    curve
}

/// Question 5 and one read on random plans of so many banks and clashes.
fn questions(
    effort: &Effort,
    sizes: Vec<(usize, usize)>,
    place: fn(&(usize, usize)) -> usize,
) -> Questions {
    let places: Vec<f64> = sizes.iter().map(|size| place(size) as f64).collect();
    let curve = |name| Curve::new(name, places.clone());
    let mut measured = Questions {
        question: BOTH.map(curve),
        read: curve("one read of all cells"),
    };
    let mut plans: Vec<[Memory; 2]> = sizes.into_iter().map(plans_of).collect();
    for _ in 0..effort.repeats {
        for (place, plans) in plans.iter_mut().enumerate() {
            for (plan, curve) in plans.iter_mut().zip(&mut measured.question) {
                curve.times[place].push(question_time(plan, effort.tests));
            }
            measured.read.times[place].push(read_time(&plans[0], effort.tests));
        }
    }
    measured
}

/// A random plan with all ranks 0 and with random ranks.
fn plans_of((banks, clashes): (usize, usize)) -> [Memory; 2] {
    let mut random = Random::new((banks + clashes) as u64);
    let ranks = random_ranks_of(&mut random, banks);
    let drawn = Clashes::drawn(&mut random, banks, clashes);
    [
        Memory::of(&drawn, &vec![0; banks]),
        Memory::of(&drawn, &ranks),
    ]
}
