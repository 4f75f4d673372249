//! The plan's cells against the paper's words, and memory that holds no plan.

use crate::support::{any_graph, memory_of, opened};
use independent::graph::Graph;
use independent::memory::Memory;
use independent::random::Random;

/// Banks, clashes, waves, cap.
fn tally_cells(memory: &Memory) -> [u16; 4] {
    let tally = memory.tally;
    [tally.banks, tally.clashes, tally.waves, tally.cap]
}

#[test]
fn cells_of_a_small_plan() {
    // Degrees 2 1 3 2 0: order 2 0 3 1 4; waves 1 1 0 2 0.
    let graph = Graph::of(5, [(0, 2), (3, 2), (1, 2), (0, 3)]);
    let memory = memory_of(&graph, 0);
    let rows: [&[u16]; 5] = [&[2, 3], &[2], &[0, 1, 3], &[0, 2], &[]];
    for (b, row) in rows.iter().enumerate() {
        let mut cells = [65_535; 23];
        cells[..row.len()].copy_from_slice(row);
        assert_eq!(memory.neighbours[23 * b..23 * b + 23], cells);
        assert_eq!(memory.clashes_of(b as u16), *row);
    }
    assert_eq!(memory.degrees, [2, 1, 3, 2, 0]);
    assert_eq!(memory.waves, [1, 1, 0, 2, 0]);
    let counts: [&[u16]; 5] = [&[1], &[1], &[], &[1, 1], &[]];
    for (b, front) in counts.iter().enumerate() {
        let mut cells = [0; 24];
        cells[..front.len()].copy_from_slice(front);
        assert_eq!(memory.counts[24 * b..24 * b + 24], cells);
    }
    assert_eq!(memory.ranks, [0; 5]);
    assert_eq!(tally_cells(&memory), [5, 4, 3, 24]);
}

/// Ranks turn the tie of banks 0 and 3 round: order 2 3 0 1 4; waves 2 1 0 1 0.
#[test]
fn cells_of_a_small_plan_with_ranks() {
    let graph = Graph::of(5, [(0, 2), (3, 2), (1, 2), (0, 3)]);
    let memory = memory_of(&graph.with_ranks(vec![9999, 0, 12, 9998, 1]), 0);
    assert_eq!(memory.degrees, [2, 1, 3, 2, 0]);
    assert_eq!(memory.waves, [2, 1, 0, 1, 0]);
    assert_eq!(memory.ranks, [9999, 0, 12, 9998, 1]);
    let counts: [&[u16]; 5] = [&[1, 1], &[1], &[], &[1], &[]];
    for (b, front) in counts.iter().enumerate() {
        let mut cells = [0; 24];
        cells[..front.len()].copy_from_slice(front);
        assert_eq!(memory.counts[24 * b..24 * b + 24], cells);
    }
    assert_eq!(tally_cells(&memory), [5, 4, 3, 24]);
}

/// All 276 clashes of 24 banks: bank b stands in wave b, after one bank in each lower wave.
#[test]
fn cells_of_the_most_waves() {
    let mut memory = opened(24, &[]);
    for a in 0..24 {
        for b in 0..a {
            assert_eq!(memory.add(a, b).number, 0);
        }
    }
    assert_eq!(memory.degrees, [23; 24]);
    for (b, counts) in memory.counts.chunks(24).enumerate() {
        assert_eq!(usize::from(memory.waves[b]), b);
        assert!(counts[..b].iter().all(|&count| count == 1));
        assert!(counts[b..].iter().all(|&count| count == 0));
    }
    assert_eq!(tally_cells(&memory), [24, 276, 24, 24]);
}

#[test]
fn open_sets_every_cell() {
    let mut memory = Memory::filled(4, 500);
    assert_eq!(memory.open(3), 0);
    assert_eq!(memory.neighbours[..69], [65_535; 69]);
    assert_eq!(memory.degrees[..3], [0; 3]);
    assert_eq!(memory.waves[..3], [0; 3]);
    assert_eq!(memory.counts[..72], [0; 72]);
    assert_eq!(memory.ranks[..3], [0; 3]);
    assert_eq!(tally_cells(&memory), [3, 0, 1, 24]);
    for rest in [
        &memory.neighbours[69..],
        &memory.degrees[3..],
        &memory.waves[3..],
        &memory.counts[72..],
        &memory.ranks[3..],
        &memory.trail,
        &memory.moved,
    ] {
        assert!(!rest.is_empty() && rest.iter().all(|&cell| cell == 500));
    }
}

/// Counts, degrees and tally, counted clash by clash from the rows and waves that stand in memory.
#[test]
fn cells_agree_with_rows_and_waves() {
    let mut random = Random::new(21);
    for _ in 0..200 {
        let graph = any_graph(&mut random, 50);
        let memory = memory_of(&graph, 0);
        let n = graph.banks();
        let clash = |p: usize, q: usize| memory.neighbours[23 * p..][..23].contains(&(q as u16));
        let mut clashes = 0;
        for b in 0..n {
            assert_eq!(
                usize::from(memory.degrees[b]),
                (0..n).filter(|&q| clash(b, q)).count()
            );
            clashes += (0..b).filter(|&q| clash(b, q)).count();
            for wave in 0..24 {
                let stands = |q: &usize| {
                    let more = memory.degrees[*q] > memory.degrees[b];
                    let tie = memory.degrees[*q] == memory.degrees[b];
                    let nearer = (memory.ranks[*q], *q) < (memory.ranks[b], b);
                    let earlier = more || (tie && nearer);
                    clash(b, *q) && earlier && memory.waves[*q] == wave
                };
                let count = (0..n).filter(stands).count();
                assert_eq!(
                    usize::from(memory.counts[24 * b + usize::from(wave)]),
                    count
                );
            }
        }
        assert_eq!(usize::from(memory.tally.clashes), clashes);
        assert_eq!(memory.tally.waves, memory.waves.iter().max().unwrap() + 1);
    }
}

type Slice = fn(&mut Memory) -> &mut Vec<u16>;

/// Two plans of the same bank count never differ in one cell only, but for a rank.
#[test]
fn a_changed_cell_is_no_plan() {
    let mut random = Random::new(22);
    for _ in 0..20 {
        let graph = any_graph(&mut random, 12);
        let memory = memory_of(&graph, 1);
        assert!(memory.holds_plan());
        let n = graph.banks();
        let slices: [(Slice, usize); 4] = [
            (|memory| &mut memory.neighbours, 23 * n),
            (|memory| &mut memory.degrees, n),
            (|memory| &mut memory.waves, n),
            (|memory| &mut memory.counts, 24 * n),
        ];
        for (slice, used) in slices {
            for place in 0..used {
                let mut changed = memory.clone();
                let cell = &mut slice(&mut changed)[place];
                *cell = other_content(&mut random, *cell, n);
                assert!(!changed.holds_plan(), "cell {place}");
            }
            let mut changed = memory.clone();
            slice(&mut changed)[used] ^= 1;
            assert!(changed.holds_plan(), "a cell beyond the plan");
        }
        let mut changed = memory.clone();
        changed.ranks[n] = 65_535;
        assert!(changed.holds_plan(), "a rank beyond the plan");
    }
}

/// A rank above 9,999 is no plan. Another rank up to there is one if each tie with a neighbour still
/// goes as it did.
#[test]
fn a_changed_rank_is_a_plan_if_no_tie_turns_over() {
    let mut random = Random::new(23);
    let (mut plans, mut others) = (0, 0);
    for _ in 0..60 {
        let graph = any_graph(&mut random, 12);
        let memory = memory_of(&graph, 0);
        for b in 0..graph.banks() {
            for rank in [10_000, 10_001, 16_384, 32_768, 65_535] {
                let mut changed = memory.clone();
                changed.ranks[b] = rank;
                assert!(!changed.holds_plan(), "{rank}");
            }
            for rank in [0, 1, 2, 3, 5000, 9998, 9999] {
                let mut changed = memory.clone();
                changed.ranks[b] = rank;
                let new = graph.ranked(b, rank.into());
                let turned = |q: &usize| graph.earlier(*q, b) != new.earlier(*q, b);
                let turned = graph.neighbours(b).filter(turned).count();
                assert_eq!(changed.holds_plan(), turned == 0);
                plans += usize::from(turned == 0);
                others += usize::from(turned > 0);
            }
        }
    }
    assert!(plans > 100 && others > 100, "{plans}, {others}");
}

/// Content other than the present one: near it, a bank, the filler or anything.
fn other_content(random: &mut Random, present: u16, n: usize) -> u16 {
    loop {
        let content = match random.below(4) {
            0 => present.wrapping_add(1),
            1 => random.below(n) as u16,
            2 => 65_535,
            _ => random.draw() as u16,
        };
        if content != present {
            return content;
        }
    }
}

#[test]
fn a_changed_tally_is_no_plan() {
    let mut memory = memory_of(&Graph::of(4, [(0, 1), (2, 3)]), 0);
    let tally = memory.tally;
    memory.tally.clashes = 1;
    assert!(!memory.holds_plan());
    memory.tally = tally;
    memory.tally.waves = 3;
    assert!(!memory.holds_plan());
    memory.tally = tally;
    memory.tally.banks = 3;
    assert!(!memory.holds_plan(), "bank 2 clashes with bank 3");
    memory.tally = tally;
    assert!(memory.holds_plan());
    for cap in 0..=65_535 {
        memory.tally.cap = cap;
        assert_eq!(memory.holds_plan(), (2..=24).contains(&cap), "cap {cap}");
    }
}

#[test]
fn a_smaller_tally_may_be_a_plan_too() {
    let mut memory = memory_of(&Graph::of(4, [(0, 1)]), 0);
    memory.tally.banks = 2;
    assert!(memory.holds_plan(), "banks 2 and 3 are now beyond the plan");
    memory.tally.banks = 0;
    assert!(
        !memory.holds_plan(),
        "0 banks have neither clashes nor waves"
    );
    memory.tally.clashes = 0;
    memory.tally.waves = 0;
    assert!(memory.holds_plan());
}

/// Rows that break one condition on rows only, with all other cells made to fit.
#[test]
fn rows_that_are_no_graph() {
    let good = memory_of(&Graph::of(3, [(0, 1), (0, 2)]), 0);
    let with_row_0 = |cells: [u16; 4]| {
        let mut memory = good.clone();
        memory.neighbours[..4].copy_from_slice(&cells);
        memory.holds_plan()
    };
    let none = 65_535;
    assert!(with_row_0([1, 2, none, none]));
    assert!(!with_row_0([2, 1, none, none]), "descending");
    assert!(!with_row_0([1, 1, 2, none]), "twice");
    assert!(!with_row_0([1, none, 2, none]), "a gap");
    assert!(!with_row_0([0, 1, 2, none]), "itself");
    assert!(!with_row_0([1, 2, 3, none]), "no such bank");
    assert!(!with_row_0([1, none, none, none]), "one-sided");
}

/// 24 rows name bank 0, which has no row cell for the last of them.
#[test]
fn a_degree_of_24_is_no_plan() {
    let mut memory = memory_of(&Graph::of(25, (1..24).map(|q| (0, q))), 0);
    assert!(memory.holds_plan());
    memory.neighbours[23 * 24] = 0;
    memory.degrees[0] = 24;
    memory.degrees[24] = 1;
    memory.waves[24] = 1;
    memory.counts[24 * 24] = 1;
    memory.tally.clashes = 24;
    assert!(!memory.holds_plan());
}
