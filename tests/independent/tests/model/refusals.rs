//! Each refusal of open, add, strike, wave of a bank and clashes of a bank: the first no wins, and
//! a refused call leaves all memory as it was.

use crate::support::{memory_of, opened};
use independent::calls::{EditAnswer, WaveAnswer};
use independent::graph::Graph;
use independent::memory::Memory;
use independent::random::Random;
use std::collections::BTreeSet;

const NO_COUNTS: EditAnswer = EditAnswer {
    number: 0,
    moved: 0,
    trail: 0,
};

/// An add that is refused with the number and changes nothing.
fn add_refused(memory: &Memory, a: u16, b: u16, number: u16) {
    let mut after = memory.clone();
    let answer = EditAnswer {
        number,
        ..NO_COUNTS
    };
    assert_eq!(after.add(a, b), answer, "add {a} {b}");
    assert_eq!(after, *memory);
}

/// A strike that is refused with the number and changes nothing.
fn strike_refused(memory: &Memory, a: u16, b: u16, number: u16) {
    let mut after = memory.clone();
    let answer = EditAnswer {
        number,
        ..NO_COUNTS
    };
    assert_eq!(after.strike(a, b), answer, "strike {a} {b}");
    assert_eq!(after, *memory);
}

/// The two calls about one bank, refused with the number.
fn bank_refused(memory: &Memory, b: u16, number: u16) {
    assert_eq!(memory.wave_of(b), WaveAnswer { number, wave: 0 });
    assert!(memory.clashes_of(b).is_empty());
}

/// All calls but open and list, refused with the number whatever the bank is.
fn all_refused(memory: &Memory, number: u16) {
    for (a, b) in [(0, 1), (1, 1), (0, 60_000)] {
        add_refused(memory, a, b, number);
        strike_refused(memory, a, b, number);
        bank_refused(memory, b, number);
    }
    let mut output = *b"untouched";
    let answer = memory.write_sheet(&mut output);
    assert_eq!((answer.number, answer.length), (number, 0));
    assert_eq!(&output, b"untouched");
}

fn open_refused(memory: &Memory, n: u16, number: u16) {
    let mut after = memory.clone();
    assert_eq!(after.open(n), number, "open {n}");
    assert_eq!(after, *memory);
}

#[test]
fn bank_counts_above_1024() {
    let mut memory = Memory::filled(1024, 3);
    open_refused(&memory, 1025, 1);
    open_refused(&memory, 65_535, 1);
    assert_eq!(memory.open(1024), 0);
    assert_eq!(memory.add(1023, 0).number, 0);
    memory.tally.banks = 1025;
    all_refused(&memory, 1);
    memory.tally.banks = 65_535;
    all_refused(&memory, 1);
}

#[test]
fn the_bank_count_is_asked_before_the_lengths() {
    let mut memory = Memory::filled(0, 0);
    open_refused(&memory, 1025, 1);
    memory.tally.banks = 1025;
    all_refused(&memory, 1);
}

/// One slice of memory for n banks is a cell short.
fn short(memory: &Memory, slice: usize) -> Memory {
    let mut memory = memory.clone();
    let slices = [
        &mut memory.neighbours,
        &mut memory.degrees,
        &mut memory.waves,
        &mut memory.counts,
        &mut memory.ranks,
        &mut memory.trail,
        &mut memory.moved,
    ];
    for (place, cells) in slices.into_iter().enumerate() {
        if place == slice {
            cells.pop();
        }
    }
    memory
}

#[test]
fn short_plan_slices() {
    let memory = opened(3, &[(0, 1)]);
    for slice in 0..5 {
        let memory = short(&memory, slice);
        open_refused(&memory, 3, 2);
        all_refused(&memory, 2);
        assert_eq!(memory.clone().open(2), 0, "two banks fit");
    }
}

#[test]
fn short_trail_or_moved() {
    let memory = opened(3, &[(0, 1)]);
    for slice in 5..7 {
        let mut memory = short(&memory, slice);
        add_refused(&memory, 1, 2, 2);
        add_refused(&memory, 1, 1, 2);
        strike_refused(&memory, 0, 1, 2);
        assert_eq!(memory.wave_of(1), WaveAnswer { number: 0, wave: 1 });
        assert_eq!(memory.clashes_of(1), [0]);
        assert_eq!(memory.write_sheet(&mut [0; 30]).number, 0);
        assert_eq!(memory.open(3), 0);
    }
}

#[test]
fn lengths_are_asked_before_the_plan() {
    let memory = opened(3, &[(0, 1)]);
    for slice in 0..7 {
        let mut memory = short(&memory, slice);
        memory.tally.waves = 9;
        add_refused(&memory, 1, 2, 2);
        strike_refused(&memory, 0, 1, 2);
    }
}

#[test]
fn memory_without_a_plan() {
    let mut memory = opened(3, &[(0, 1)]);
    memory.waves[2] = 1;
    all_refused(&memory, 3);
    let mut memory = opened(3, &[(0, 1)]);
    memory.counts[71] = 1;
    all_refused(&memory, 3);
    let mut memory = opened(3, &[(0, 1)]);
    memory.ranks[2] = 10_000;
    all_refused(&memory, 3);
    let mut memory = opened(3, &[(0, 1)]);
    memory.ranks[0] = 1;
    all_refused(&memory, 3);
    for cap in [0, 1, 25, 280, 65_535] {
        let mut memory = opened(3, &[(0, 1)]);
        memory.tally.cap = cap;
        all_refused(&memory, 3);
    }
    all_refused(&Memory::filled(700, 700), 3);
}

#[test]
fn open_asks_nothing_about_the_plan_before() {
    let mut memory = Memory::filled(5, 5);
    assert!(!memory.holds_plan());
    assert_eq!(memory.open(5), 0);
    assert!(memory.holds_plan());
}

#[test]
fn banks_and_clashes() {
    let memory = opened(3, &[(0, 1)]);
    add_refused(&memory, 3, 0, 4);
    add_refused(&memory, 0, 3, 4);
    add_refused(&memory, 3, 3, 4);
    add_refused(&memory, 65_535, 65_535, 4);
    add_refused(&memory, 2, 2, 5);
    add_refused(&memory, 0, 1, 6);
    add_refused(&memory, 1, 0, 6);
    strike_refused(&memory, 0, 3, 4);
    strike_refused(&memory, 3, 3, 4);
    strike_refused(&memory, 1, 1, 5);
    strike_refused(&memory, 1, 2, 7);
    strike_refused(&memory, 2, 1, 7);
    bank_refused(&memory, 3, 4);
    bank_refused(&memory, 65_535, 4);
}

#[test]
fn no_bank_is_below_0() {
    let memory = opened(0, &[]);
    add_refused(&memory, 0, 0, 4);
    strike_refused(&memory, 0, 1, 4);
    bank_refused(&memory, 0, 4);
}

#[test]
fn full_degrees() {
    let mut memory = memory_of(&Graph::of(26, (1..23).map(|q| (0, q))), 0);
    assert_eq!(memory.add(23, 0).number, 0, "a 23rd clash");
    add_refused(&memory, 0, 24, 8);
    add_refused(&memory, 24, 0, 8);
    add_refused(&memory, 0, 23, 6);
    add_refused(&memory, 0, 0, 5);
    add_refused(&memory, 0, 26, 4);
    strike_refused(&memory, 0, 24, 7);
    assert_eq!(memory.add(24, 25).number, 0);
    assert_eq!(memory.strike(5, 0).number, 0);
    assert_eq!(memory.add(0, 24).number, 0, "room again");
}

#[test]
fn accepted_calls_about_a_bank_answer_from_the_plan() {
    let memory = opened(4, &[(0, 1), (1, 2), (2, 3)]);
    let waves: Vec<u16> = (0..4).map(|b| memory.wave_of(b).wave).collect();
    assert_eq!(waves, [1, 0, 1, 0]);
    let clashes: Vec<&[u16]> = (0..4).map(|b| memory.clashes_of(b)).collect();
    assert_eq!(clashes, [&[1][..], &[0, 2], &[1, 3], &[2]]);
}

/// Memory of random lengths and content, most of it without a plan.
fn random_memory(random: &mut Random) -> Memory {
    let banks = *random.pick(&[0, 1, 2, 3, 5, 1024, 1025, 65_535]);
    let mut memory = Memory::filled(random.below(7), 0);
    memory.tally.banks = banks;
    memory.tally.waves = random.below(3) as u16;
    memory.tally.cap = *random.pick(&[24, 24, 2, 0, 25]);
    for slice in [
        &mut memory.neighbours,
        &mut memory.degrees,
        &mut memory.waves,
        &mut memory.counts,
        &mut memory.ranks,
        &mut memory.trail,
        &mut memory.moved,
    ] {
        slice.truncate(slice.len() - random.below(slice.len().min(2) + 1));
        slice.fill_with(|| *random.pick(&[0, 0, 1, 2, 65_535]));
    }
    if random.one_in(2) {
        memory.neighbours.fill(65_535);
        memory.degrees.fill(0);
        memory.waves.fill(0);
        memory.counts.fill(0);
    }
    memory
}

#[test]
fn any_memory_gets_the_first_refusal_due() {
    let mut random = Random::new(61);
    let mut seen = BTreeSet::new();
    for _ in 0..3000 {
        let memory = random_memory(&mut random);
        let n = usize::from(memory.tally.banks);
        let plan = memory.neighbours.len() >= 23 * n
            && memory.degrees.len() >= n
            && memory.waves.len() >= n
            && memory.counts.len() >= 24 * n
            && memory.ranks.len() >= n;
        let lists = memory.trail.len() >= n && memory.moved.len() >= n;
        if n > 1024 {
            all_refused(&memory, 1);
            seen.insert(1);
        } else if !plan {
            all_refused(&memory, 2);
            seen.insert(2);
        } else if !lists {
            add_refused(&memory, 0, 1, 2);
            strike_refused(&memory, 0, 1, 2);
        } else if !memory.holds_plan() {
            all_refused(&memory, 3);
            seen.insert(3);
        } else if n >= 2 {
            assert_eq!(memory.clone().add(0, 1).number, 0);
            seen.insert(0);
        }
    }
    assert_eq!(seen, BTreeSet::from([0, 1, 2, 3]));
}
