//! Ways to damage memory that holds a plan. The subtle ones break one condition and leave all
//! others as they should be. Where only ranks or the cap change, it may still hold a plan.

use crate::plans::{any_cap, graph, needed, row, slices, PLAN_SLICES, SLICES};
use independent::graph::Bank;
use independent::memory::Memory;
use independent::plan::{Plan, MAX_DEGREE, MAX_RANK, NO_BANK, WAVES};
use independent::random::Random;
use independent::ranks::drawn_ranks;

/// A way to damage the plan of at least two banks.
pub type Damage = fn(&mut Random, &mut Memory);

pub const DAMAGES: [Damage; 23] = [
    one_cell,
    some_cells,
    one_slice,
    one_tally_cell,
    all_tally_cells,
    one_wave_up,
    one_wave_down,
    waves_of_two_banks,
    far_wave,
    later_neighbours_counted,
    one_row_of_no_graph,
    two_rows_of_no_graph,
    two_degrees,
    padding,
    rows_of_another_plan,
    other_bank_count,
    short_slice,
    far_rank,
    one_tie_turned,
    ranks_of_another_plan,
    waves_of_ranks_0,
    wrong_cap,
    another_cap,
];

/// One cell of the plan or of the tally gets other content.
pub fn one_cell(random: &mut Random, memory: &mut Memory) {
    let n = usize::from(memory.tally.banks);
    if n == 0 || random.one_in(10) {
        return one_tally_cell(random, memory);
    }
    let slice = random.below(PLAN_SLICES);
    let cell = &mut slices(memory)[slice][random.below(needed(n)[slice])];
    *cell = other_content(random, *cell, n);
}

fn some_cells(random: &mut Random, memory: &mut Memory) {
    let banks = memory.tally.banks;
    for _ in 0..random.between(2, 5) {
        one_cell(random, memory);
        memory.tally.banks = banks;
    }
}

/// One slice of the plan gets any content, small numbers or any numbers.
fn one_slice(random: &mut Random, memory: &mut Memory) {
    let limit = *random.pick(&[2, 24, usize::from(memory.tally.banks) + 1, 65_536]);
    let filler = random.one_in(2);
    let slice = random.below(PLAN_SLICES);
    for cell in slices(memory)[slice].iter_mut() {
        let any = random.below(limit) as u16;
        *cell = if filler && any % 2 == 1 { NO_BANK } else { any };
    }
}

fn one_tally_cell(random: &mut Random, memory: &mut Memory) {
    let n = usize::from(memory.tally.banks);
    let tally = &mut memory.tally;
    let cell = match random.below(7) {
        0 => &mut tally.banks,
        1 | 2 => &mut tally.clashes,
        3 | 4 => &mut tally.waves,
        _ => &mut tally.cap,
    };
    *cell = other_content(random, *cell, n);
}

fn all_tally_cells(random: &mut Random, memory: &mut Memory) {
    let limit = *random.pick(&[3, 40, 1025, 65_536]);
    memory.tally.banks = random.below(limit) as u16;
    memory.tally.clashes = random.below(limit) as u16;
    memory.tally.waves = random.below(limit) as u16;
    memory.tally.cap = random.below(limit) as u16;
}

/// A cap that no plan has, or one below the waves of this.
fn wrong_cap(random: &mut Random, memory: &mut Memory) {
    let low = random.below(memory.tally.waves.max(1).into());
    let far = random.between(25, 65_535);
    let cap = *random.pick(&[0, low, low, 25, 256 + low, far]);
    memory.tally.cap = cap as u16;
}

/// Another cap that the plan can have.
fn another_cap(random: &mut Random, memory: &mut Memory) {
    memory.tally.cap = any_cap(random, memory.tally.waves);
}

/// One bank gets a higher wave that no neighbour holds; Counts and tally are made to fit.
fn one_wave_up(random: &mut Random, memory: &mut Memory) {
    let b = random.below(usize::from(memory.tally.banks));
    let held = |wave: &u16| {
        let mut neighbours = row(memory, b).iter();
        neighbours.any(|&q| memory.waves[usize::from(q)] == *wave)
    };
    let mut higher = memory.waves[b] + 1..WAVES as u16;
    if let Some(wave) = higher.find(|wave| !held(wave)) {
        memory.waves[b] = wave;
        fit_counts(memory);
    }
}

/// One bank gets a lower wave, which an earlier neighbour holds; Counts and tally are made to fit.
fn one_wave_down(random: &mut Random, memory: &mut Memory) {
    let n = usize::from(memory.tally.banks);
    let start = random.below(n);
    let above = (0..n).find(|i| memory.waves[(start + i) % n] > 0);
    if let Some(i) = above {
        let wave = &mut memory.waves[(start + i) % n];
        *wave = random.below(usize::from(*wave)) as u16;
        fit_counts(memory);
    }
}

/// Two banks change places in their waves; Counts and tally are made to fit.
fn waves_of_two_banks(random: &mut Random, memory: &mut Memory) {
    let n = usize::from(memory.tally.banks);
    memory.waves.swap(random.below(n), random.below(n));
    fit_counts(memory);
}

/// One bank gets a wave above 23.
fn far_wave(random: &mut Random, memory: &mut Memory) {
    let b = random.below(usize::from(memory.tally.banks));
    memory.waves[b] = *random.pick(&[24, 25, 48, 1024, 0x7FFF, 65_535]);
}

/// Counts counts the later neighbours too.
fn later_neighbours_counted(_: &mut Random, memory: &mut Memory) {
    for b in 0..usize::from(memory.tally.banks) {
        let mut counts = [0; WAVES];
        for &q in row(memory, b) {
            counts[usize::from(memory.waves[usize::from(q)])] += 1;
        }
        memory.counts[WAVES * b..][..WAVES].copy_from_slice(&counts);
    }
}

/// One row that no graph has; degrees, waves, Counts and tally are made to fit.
fn one_row_of_no_graph(random: &mut Random, memory: &mut Memory) {
    let b = random.below(usize::from(memory.tally.banks));
    let kind = random.below(7);
    row_of_no_graph(random, memory, b, kind);
    fit_degrees(memory);
    fit_waves(memory);
}

/// Two rows that no graph has, of one kind, so that the degrees have an even sum as a rule.
fn two_rows_of_no_graph(random: &mut Random, memory: &mut Memory) {
    let n = usize::from(memory.tally.banks);
    let (b, step) = (random.below(n), random.between(1, n - 1));
    let kind = random.below(7);
    row_of_no_graph(random, memory, b, kind);
    row_of_no_graph(random, memory, (b + step) % n, kind);
    fit_degrees(memory);
    fit_waves(memory);
}

/// Makes the row of b one that no graph has.
fn row_of_no_graph(random: &mut Random, memory: &mut Memory, b: Bank, kind: usize) {
    let n = usize::from(memory.tally.banks);
    let mut banks = row(memory, b).to_vec();
    let place = random.below(banks.len() + 1);
    let any = random.below(n) as u16;
    match kind {
        0 => {
            banks.push(b as u16);
            banks.sort_unstable();
        }
        1 => banks.insert(place, any),
        2 => banks.push(n as u16),
        3 => banks.insert(place, NO_BANK),
        4 => banks.reverse(),
        5 if !banks.is_empty() => {
            banks.remove(place % banks.len());
        }
        _ => {
            banks.push(any);
            banks.sort_unstable();
        }
    }
    banks.resize(MAX_DEGREE, NO_BANK);
    memory.neighbours[MAX_DEGREE * b..][..MAX_DEGREE].copy_from_slice(&banks);
}

/// One degree is one too high, another one too low; waves, Counts and tally are made to fit.
fn two_degrees(random: &mut Random, memory: &mut Memory) {
    let n = usize::from(memory.tally.banks);
    let (a, b) = (random.below(n), random.below(n));
    if a != b && memory.degrees[a] > 0 {
        memory.degrees[a] -= 1;
        memory.degrees[b] += 1;
        fit_waves(memory);
    }
}

/// A cell after a row's banks is not 65,535.
fn padding(random: &mut Random, memory: &mut Memory) {
    let n = usize::from(memory.tally.banks);
    let b = random.below(n);
    let degree = usize::from(memory.degrees[b]);
    if degree < MAX_DEGREE {
        let place = random.between(degree, MAX_DEGREE - 1);
        memory.neighbours[MAX_DEGREE * b + place] = *random.pick(&[0, n as u16, 65_534]);
    }
}

/// The rows are of one plan, all else of another.
fn rows_of_another_plan(random: &mut Random, memory: &mut Memory) {
    let other = Plan::of(&graph(random, usize::from(memory.tally.banks)));
    memory.neighbours[..other.neighbours.len()].copy_from_slice(&other.neighbours);
    if random.one_in(2) {
        memory.degrees[..other.degrees.len()].copy_from_slice(&other.degrees);
        memory.tally.clashes = other.tally.clashes;
    }
}

/// One bank fewer, or one more if the slices have room.
fn other_bank_count(random: &mut Random, memory: &mut Memory) {
    memory.tally.banks = match random.below(3) {
        0 => memory.tally.banks + 1,
        1 => memory.tally.banks - 1,
        _ => *random.pick(&[1024, 1025, 65_535]),
    };
}

/// One slice is too short.
fn short_slice(random: &mut Random, memory: &mut Memory) {
    let n = usize::from(memory.tally.banks);
    let slice = random.below(SLICES);
    let needed = needed(n)[slice];
    let length = match random.below(3) {
        0 => 0,
        1 => random.below(needed),
        _ => needed - 1,
    };
    slices(memory)[slice].truncate(length);
}

/// One rank is above 9,999; waves, Counts and tally are made to fit.
fn far_rank(random: &mut Random, memory: &mut Memory) {
    let b = random.below(usize::from(memory.tally.banks));
    let any = random.between(MAX_RANK + 1, 65_535);
    memory.ranks[b] = *random.pick(&[10_000, 10_001, 16_384, 65_535, any as u16]);
    fit_waves(memory);
}

/// Two neighbours of equal degree change places in their ranks, if some tries find them.
fn one_tie_turned(random: &mut Random, memory: &mut Memory) {
    let n = usize::from(memory.tally.banks);
    for _ in 0..20 {
        let b = random.below(n);
        let tie = |q: &&u16| memory.degrees[usize::from(**q)] == memory.degrees[b];
        if let Some(&q) = row(memory, b).iter().find(tie) {
            let q = usize::from(q);
            if memory.ranks[b] == memory.ranks[q] {
                memory.ranks[b.min(q)] ^= 1;
            }
            memory.ranks.swap(b, q);
            return;
        }
    }
}

/// Other ranks, up to 9,999; all else is as it was.
fn ranks_of_another_plan(random: &mut Random, memory: &mut Memory) {
    let ranks = drawn_ranks(random, usize::from(memory.tally.banks));
    for (cell, rank) in memory.ranks.iter_mut().zip(ranks) {
        *cell = rank as u16;
    }
}

/// Waves, Counts and the tally's waves as they are if ties go by number alone.
fn waves_of_ranks_0(_: &mut Random, memory: &mut Memory) {
    let ranks = memory.ranks.clone();
    memory.ranks.fill(0);
    fit_waves(memory);
    memory.ranks = ranks;
}

/// Content other than the present one: near it, a bank, the filler or anything.
fn other_content(random: &mut Random, present: u16, n: usize) -> u16 {
    loop {
        let content = match random.below(5) {
            0 => present.wrapping_add(1),
            1 => present.wrapping_sub(1),
            2 => random.below(n + 1) as u16,
            3 => NO_BANK,
            _ => random.draw() as u16,
        };
        if content != present {
            return content;
        }
    }
}

/// Counts and the tally's waves as the stored rows, degrees and waves give them, under the cap.
fn fit_counts(memory: &mut Memory) {
    let n = usize::from(memory.tally.banks);
    for b in 0..n {
        let mut counts = [0; WAVES];
        for q in earlier_in_row(memory, b) {
            counts[usize::from(memory.waves[q])] += 1;
        }
        memory.counts[WAVES * b..][..WAVES].copy_from_slice(&counts);
    }
    let waves = memory.waves[..n].iter().max().map_or(0, |wave| wave + 1);
    memory.tally.waves = waves;
    memory.tally.cap = memory.tally.cap.max(waves);
}

/// Degrees and the tally's clashes as the stored rows give them, whether these make a graph or not.
fn fit_degrees(memory: &mut Memory) {
    let n = usize::from(memory.tally.banks);
    for b in 0..n {
        let row = &memory.neighbours[MAX_DEGREE * b..][..MAX_DEGREE];
        memory.degrees[b] = row.iter().filter(|&&q| q != NO_BANK).count() as u16;
    }
    let ends: u16 = memory.degrees[..n].iter().sum();
    memory.tally.clashes = ends / 2;
}

/// Waves, Counts and the tally's waves as the stored rows and degrees give them.
fn fit_waves(memory: &mut Memory) {
    let mut order: Vec<Bank> = (0..usize::from(memory.tally.banks)).collect();
    order.sort_by_key(|&b| place(memory, b));
    for b in order {
        let held: Vec<u16> = earlier_in_row(memory, b)
            .into_iter()
            .map(|q| memory.waves[q])
            .collect();
        let free = (0..).find(|wave| !held.contains(wave));
        memory.waves[b] = free.expect("one more than are held");
    }
    fit_counts(memory);
}

/// The banks in b's stored row that are earlier by the stored degrees and ranks.
fn earlier_in_row(memory: &Memory, b: Bank) -> Vec<Bank> {
    let n = usize::from(memory.tally.banks);
    let row = &memory.neighbours[MAX_DEGREE * b..][..MAX_DEGREE];
    row.iter()
        .map(|&q| usize::from(q))
        .filter(|&q| q < n && place(memory, q) < place(memory, b))
        .collect()
}

/// Where b stands in the order by the stored degrees and ranks: larger degree, smaller rank, smaller
/// number.
fn place(memory: &Memory, b: Bank) -> (u16, u16, Bank) {
    (NO_BANK - memory.degrees[b], memory.ranks[b], b)
}
