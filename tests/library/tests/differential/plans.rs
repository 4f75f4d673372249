//! Random plans of all sizes, of few clashes to full degrees, with ranks and caps of all kinds.

use independent::graph::{Bank, Graph};
use independent::memory::Memory;
use independent::plan::{Plan, MAX_CAP, MAX_DEGREE, WAVES};
use independent::random::Random;
use independent::ranks::drawn_ranks;
use independent::shelf::{kept_cells, place_cells, shelf_cells};
use std::collections::BTreeSet;

/// A random bank count up to the given one; small ones and the edges are the most frequent.
pub fn bank_count(random: &mut Random, most: usize) -> usize {
    let n = match random.below(20) {
        0 => random.between(0, 1),
        1..=6 => random.between(2, 8),
        7..=13 => random.between(9, 30),
        14 | 15 => *random.pick(&[24, 25, 1023, 1024]),
        16..=18 => random.between(31, 120),
        _ => random.between(121, 1024),
    };
    n.min(most)
}

/// A graph on n banks of one of the kinds below, with random ranks.
pub fn graph(random: &mut Random, n: usize) -> Graph {
    let ranks = drawn_ranks(random, n);
    clashes(random, n).with_ranks(ranks)
}

/// Such a graph, all of rank 0.
fn clashes(random: &mut Random, n: usize) -> Graph {
    if n < 2 {
        return Graph::empty(n);
    }
    let full = (n - 1).min(MAX_DEGREE);
    match random.below(8) {
        0 => Graph::empty(n),
        1 => ring(n, random.between(1, 11)),
        2 => blocks(n, random.between(2, 24)),
        3 => blocks(n, 24),
        4 => drawn(random, n, n, n * full),
        5 => {
            let tries = random.below(2 * n);
            drawn(random, n, n, tries)
        }
        _ => {
            let (hot, tries) = (random.between(2, 30), random.below(12 * n));
            drawn(random, n, hot, tries)
        }
    }
}

/// From so many tries to add a clash. Banks below `hot` are drawn more often, so that high degrees
/// and waves come up.
fn drawn(random: &mut Random, n: usize, hot: usize, tries: usize) -> Graph {
    let mut clashes = BTreeSet::new();
    let mut degrees = vec![0; n];
    for _ in 0..tries {
        let range = if random.one_in(3) { n } else { hot.min(n) };
        let (a, b) = (random.below(range), random.below(range));
        let room = degrees[a] < MAX_DEGREE && degrees[b] < MAX_DEGREE;
        if a != b && room && clashes.insert((a.min(b), a.max(b))) {
            degrees[a] += 1;
            degrees[b] += 1;
        }
    }
    Graph::of(n, clashes)
}

/// Each bank clashes with the banks up to so many places further on in a ring: equal degrees.
fn ring(n: usize, width: usize) -> Graph {
    let width = width.min((n - 1) / 2);
    let clash = move |b: Bank| (1..=width).map(move |step| (b, (b + step) % n));
    Graph::of(n, (0..n).flat_map(clash))
}

/// All clashes within each block of so many banks. Blocks of 24 have full degrees and all waves.
pub fn blocks(n: usize, size: usize) -> Graph {
    let clash = move |b: Bank| (b - b % size..b).map(move |q| (q, b));
    Graph::of(n, (0..n).flat_map(clash))
}

/// Memory for n banks of any content, each slice longer than needed by some cells.
pub fn any_memory(random: &mut Random, n: usize) -> Memory {
    let mut memory = Memory::filled(0, random.draw() as u16);
    for (slice, needed) in slices(&mut memory).into_iter().zip(needed(n)) {
        let spare = if random.one_in(3) {
            0
        } else {
            random.below(40)
        };
        *slice = (0..needed + spare).map(|_| random.draw() as u16).collect();
    }
    memory
}

/// Such memory that holds the plan of a graph, with a cap.
pub fn memory_of(random: &mut Random, graph: &Graph) -> Memory {
    let mut memory = any_memory(random, graph.banks());
    store(random, &mut memory, graph);
    memory
}

/// Writes the plan of a graph, with a cap.
pub fn store(random: &mut Random, memory: &mut Memory, graph: &Graph) {
    memory.store_plan(graph);
    memory.tally.cap = any_cap(random, memory.tally.waves);
}

/// A cap that a plan of so many waves can have: often 24, or just its waves.
pub fn any_cap(random: &mut Random, waves: u16) -> u16 {
    let least = waves.max(1);
    match random.below(5) {
        0 => least,
        1 => (least + 1).min(MAX_CAP),
        2 => random.between(least.into(), MAX_CAP.into()) as u16,
        _ => MAX_CAP,
    }
}

/// A shelf for n banks in which these plans are kept, with caps. The cells of unused places, and some beyond
/// the places, are of any content.
pub fn shelf_of(random: &mut Random, n: usize, kept: [Option<&Graph>; 3]) -> Vec<u16> {
    let limit = *random.pick(&[2, 24, 1025, 65_536]);
    let spare = random.below(3) * random.below(20);
    let mut shelf: Vec<u16> = (0..shelf_cells(n) + spare)
        .map(|_| random.below(limit) as u16)
        .collect();
    for (place, kept) in shelf.chunks_mut(place_cells(n)).zip(kept) {
        match kept {
            Some(graph) => {
                let mut plan = Plan::of(graph);
                plan.tally.cap = any_cap(random, plan.tally.waves);
                place.copy_from_slice(&kept_cells(&plan));
            }
            None => place[0] = 0,
        }
    }
    shelf
}

/// How many slices there are, and how many of them, the first ones, are the plan's. The ranks are the
/// last of these.
pub const SLICES: usize = 7;
pub const PLAN_SLICES: usize = 5;
pub const RANKS: usize = 4;

/// The slices.
pub fn slices(memory: &mut Memory) -> [&mut Vec<u16>; SLICES] {
    [
        &mut memory.neighbours,
        &mut memory.degrees,
        &mut memory.waves,
        &mut memory.counts,
        &mut memory.ranks,
        &mut memory.trail,
        &mut memory.moved,
    ]
}

/// The cells that n banks need in each slice.
pub fn needed(n: usize) -> [usize; SLICES] {
    [MAX_DEGREE * n, n, n, WAVES * n, n, n, n]
}

/// The neighbours of b in memory that holds a plan.
pub fn row(memory: &Memory, b: Bank) -> &[u16] {
    let degree = usize::from(memory.degrees[b]);
    &memory.neighbours[MAX_DEGREE * b..][..degree]
}

/// The sheet's length in memory that holds a plan.
pub fn sheet_length(memory: &Memory) -> usize {
    let mut output = [0; 5000];
    memory.write_sheet(&mut output).length
}

/// The poster's length in memory that holds a plan.
pub fn poster_length(memory: &Memory) -> usize {
    let mut output = [0; 8200];
    memory.write_poster(&mut output).length
}
