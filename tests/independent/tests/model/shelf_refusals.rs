//! Each refusal of the calls on a shelf: the first no wins, and a refused call leaves shelf and
//! memory as they were.

use crate::shelf::{back_refused, comes_back, keep, keep_refused, refused, shelf_for};
use crate::shelf::{CLOSE, MORNING, NAMES, NOON};
use crate::support::opened;
use independent::memory::Memory;
use independent::shelf::open_shelf;

#[test]
fn questions_of_opening_a_shelf() {
    for (n, cells, number) in [
        (1025, 0, 1),
        (1025, 200_000, 1),
        (65_535, 200_000, 1),
        (1024, 153_614, 2),
        (4, 614, 2),
        (1, 0, 2),
        (0, 14, 2),
        (0, 0, 2),
    ] {
        let mut shelf = vec![7; cells];
        assert_eq!(open_shelf(&mut shelf, n), number, "{n} banks");
        assert!(shelf.iter().all(|&cell| cell == 7));
    }
}

type Slice = fn(&mut Memory) -> &mut Vec<u16>;

const PLAN_SLICES: [Slice; 5] = [
    |memory| &mut memory.neighbours,
    |memory| &mut memory.degrees,
    |memory| &mut memory.waves,
    |memory| &mut memory.counts,
    |memory| &mut memory.ranks,
];

/// The memory with one slice a cell shorter.
fn short(memory: &Memory, slice: Slice) -> Memory {
    let mut memory = memory.clone();
    slice(&mut memory).pop();
    memory
}

/// Three banks, kept under NOON; the shelf has no cell to spare.
fn kept_at_noon() -> (Memory, Vec<u16>) {
    let plan = opened(3, &[(0, 1)]);
    let mut shelf = shelf_for(3);
    shelf.truncate(465);
    keep(&plan, &mut shelf, NOON);
    (plan, shelf)
}

#[test]
fn the_first_no_of_keeping_and_coming_back_wins() {
    let (plan, shelf) = kept_at_noon();
    let mut wrong_shelf = shelf.clone();
    wrong_shelf[310] = 2;
    let mut no_plan = plan.clone();
    no_plan.waves[2] = 1;
    let mut too_many = short(&no_plan, |memory| &mut memory.degrees);
    too_many.tally.banks = 1025;
    let short_moved = short(&no_plan, |memory| &mut memory.moved);
    for name in [NOON, CLOSE, b"EVENING ", b""] {
        refused(&too_many, &wrong_shelf[..464], name, 1);
        refused(&too_many, &[], name, 1);
        refused(&no_plan, &wrong_shelf[..464], name, 2);
        for slice in PLAN_SLICES {
            refused(&short(&no_plan, slice), &wrong_shelf, name, 2);
        }
        back_refused(&short_moved, &wrong_shelf, name, 2);
        keep_refused(&short_moved, &wrong_shelf, name, 3);
        refused(&no_plan, &shelf, name, 3);
        refused(&plan, &wrong_shelf, name, 3);
    }
    refused(&plan, &shelf, b"EVENING ", 16);
    back_refused(&plan, &shelf, CLOSE, 17);
}

#[test]
fn keeping_needs_neither_trail_nor_moved_and_coming_back_no_trail() {
    let (mut plan, mut shelf) = kept_at_noon();
    plan.trail.clear();
    comes_back(&mut plan, &shelf, NOON, &[]);
    plan.moved.clear();
    keep(&plan, &mut shelf, CLOSE);
    back_refused(&plan, &shelf, CLOSE, 2);
}

/// Each byte of each name changed to each other one, and names of other lengths.
#[test]
fn only_the_three_names_are_known() {
    let (plan, shelf) = kept_at_noon();
    for name in NAMES {
        for place in 0..8 {
            for byte in (0..=255).filter(|&byte| byte != name[place]) {
                let mut other = name.to_vec();
                other[place] = byte;
                refused(&plan, &shelf, &other, 16);
            }
        }
        for length in 0..8 {
            refused(&plan, &shelf, &name[..length], 16);
        }
        refused(&plan, &shelf, &[name, b" "].concat(), 16);
        refused(&plan, &shelf, &[b" ", name].concat(), 16);
        refused(&plan, &shelf, &name.to_ascii_lowercase(), 16);
        keep(&plan, &mut shelf.clone(), name);
    }
    for name in [&b"NOON\0\0\0\0"[..], b"    NOON", b"CLOSE", b"NOON"] {
        refused(&plan, &shelf, name, 16);
    }
}

/// NOON and CLOSE are used, MORNING is not: a cell of theirs counts, one of MORNING's does not. Of
/// the ranks, the three cells before a place's last, only that of bank 0 at NOON decides a tie. The
/// last is the cap: both plans have two waves.
#[test]
fn each_cell_of_a_used_place_counts_and_none_of_an_unused_one() {
    let (plan, mut shelf) = kept_at_noon();
    keep(&opened(3, &[(0, 1), (1, 2)]), &mut shelf, CLOSE);
    for (i, name) in (0..465).zip(NAMES.iter().cycle()) {
        for content in [0, 1, 2, 3, 24, 25, 9999, 10_000, 65_535] {
            if content == shelf[i] {
                continue;
            }
            let mut changed = shelf.clone();
            changed[i] = content;
            match (i, content) {
                (155, 0) => back_refused(&plan, &changed, NOON, 17),
                (310, 0) => back_refused(&plan, &changed, CLOSE, 17),
                (1..=154, _) | (307 | 308 | 461..=463, 0..=9999) | (309 | 464, 2..=24) => {
                    comes_back(&mut plan.clone(), &changed, NOON, &[]);
                    keep(&plan, &mut changed, name);
                }
                _ => refused(&plan, &changed, name, 3),
            }
        }
    }
}

/// The fronts of a kept plan's parts may be a plan of fewer banks, and its tally say so. For fewer
/// banks the places start at other cells.
#[test]
fn kept_plans_of_another_bank_count() {
    let mut memory = opened(4, &[(0, 1)]);
    let mut shelf = shelf_for(4);
    keep(&memory, &mut shelf, CLOSE);
    let banks = 410 + 197;
    for other in [2, 3, 5, 0, 1, 1024, 1025, 65_535] {
        shelf[banks] = other;
        refused(&memory, &shelf, MORNING, 3);
    }
    shelf[banks] = 4;
    comes_back(&mut memory, &shelf, CLOSE, &[]);
    memory.tally.banks = 3;
    assert!(memory.holds_plan());
    refused(&memory, &shelf, MORNING, 3);
    assert_eq!(open_shelf(&mut shelf, 3), 0);
    back_refused(&memory, &shelf, CLOSE, 17);
}
