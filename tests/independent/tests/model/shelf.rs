//! The shelf: its cells, and what opening, keeping and coming back answer and leave.

use crate::support::{memory_of, opened, opened_with};
use independent::graph::Graph;
use independent::journals::{drawn_fields, same_list};
use independent::memory::Memory;
use independent::random::Random;
use independent::shelf::{open_shelf, BackAnswer};

pub const MORNING: &[u8] = b"MORNING ";
pub const NOON: &[u8] = b"NOON    ";
pub const CLOSE: &[u8] = b"CLOSE   ";
pub const NAMES: [&[u8]; 3] = [MORNING, NOON, CLOSE];

/// An open shelf for n banks: the used cells 0, all others 7, and five cells beyond the places.
pub fn shelf_for(n: u16) -> Vec<u16> {
    let place = 50 * usize::from(n) + 5;
    let mut shelf = vec![7; 3 * place + 5];
    for used in [0, place, 2 * place] {
        shelf[used] = 0;
    }
    shelf
}

pub fn keep(memory: &Memory, shelf: &mut [u16], name: &[u8]) {
    assert_eq!(memory.keep(shelf, name), 0, "{}", name.escape_ascii());
}

/// A return that is accepted: these banks moved, and the cells after them, the trail and the cells
/// beyond the plan are as before.
pub fn comes_back(memory: &mut Memory, shelf: &[u16], name: &[u8], moved: &[u16]) {
    let old = memory.clone();
    let answer = memory.come_back(shelf, name);
    assert_eq!((answer.number, answer.moved), (0, moved.len()));
    assert_eq!(memory.moved[..moved.len()], *moved);
    assert_eq!(memory.moved[moved.len()..], old.moved[moved.len()..]);
    assert_eq!(memory.trail, old.trail);
    let n = usize::from(old.tally.banks);
    assert_eq!(memory.neighbours[23 * n..], old.neighbours[23 * n..]);
    assert_eq!(memory.degrees[n..], old.degrees[n..]);
    assert_eq!(memory.waves[n..], old.waves[n..]);
    assert_eq!(memory.counts[24 * n..], old.counts[24 * n..]);
    assert_eq!(memory.ranks[n..], old.ranks[n..]);
}

pub fn keep_refused(memory: &Memory, shelf: &[u16], name: &[u8], number: u16) {
    let mut after = shelf.to_vec();
    let got = memory.keep(&mut after, name);
    assert_eq!(got, number, "keep {}", name.escape_ascii());
    assert_eq!(after, shelf);
}

pub fn back_refused(memory: &Memory, shelf: &[u16], name: &[u8], number: u16) {
    let mut after = memory.clone();
    let answer = after.come_back(shelf, name);
    let wanted = BackAnswer { number, moved: 0 };
    assert_eq!(answer, wanted, "come back {}", name.escape_ascii());
    assert_eq!(after, *memory);
}

/// Both calls, refused with the number.
pub fn refused(memory: &Memory, shelf: &[u16], name: &[u8], number: u16) {
    keep_refused(memory, shelf, name, number);
    back_refused(memory, shelf, name, number);
}

#[test]
fn opening_clears_the_used_cells_alone() {
    for (n, used) in [
        (0, [0, 5, 10]),
        (1, [0, 55, 110]),
        (4, [0, 205, 410]),
        (1024, [0, 51_205, 102_410]),
    ] {
        let cells = 3 * (50 * usize::from(n) + 5);
        for spare in [0, 9] {
            let mut shelf = vec![60_000; cells + spare];
            assert_eq!(open_shelf(&mut shelf, n), 0);
            for (i, &cell) in shelf.iter().enumerate() {
                assert_eq!(cell, if used.contains(&i) { 0 } else { 60_000 }, "{n}: {i}");
            }
        }
    }
}

/// Two banks that clash: bank 1 has the smaller rank, so it is earlier and stands in wave 0. The cap
/// is the last cell.
#[test]
fn the_cells_of_a_kept_plan() {
    let mut memory = opened_with(&[9999, 300], &[(0, 1)]);
    assert_eq!(memory.set_cap(6), 0);
    let row = |neighbour| [&[neighbour][..], &[65_535; 22]].concat();
    let counts = [&[1][..], &[0; 23], &[0; 24]].concat();
    let place = [
        &[1][..],
        &row(1),
        &row(0),
        &[1, 1],
        &[1, 0],
        &counts,
        &[2, 1, 2],
        &[9999, 300],
        &[6],
    ];
    let place = place.concat();
    for (name, start) in [(MORNING, 0), (NOON, 105), (CLOSE, 210)] {
        let mut shelf = shelf_for(2);
        keep(&memory, &mut shelf, name);
        let mut wanted = shelf_for(2);
        wanted[start..start + 105].copy_from_slice(&place);
        assert_eq!(shelf, wanted);
    }
}

/// M5 is kept, then M6; after M7, whose moved list is 1 2 0 3, the banks come back ascending.
#[test]
fn coming_back_to_m6_and_m5() {
    let mut memory = opened(4, &[(0, 1), (1, 2), (2, 3)]);
    let mut shelf = shelf_for(4);
    keep(&memory, &mut shelf, MORNING);
    assert_eq!(memory.add(0, 3).number, 0);
    keep(&memory, &mut shelf, NOON);
    assert_eq!(memory.strike(0, 3).number, 0);
    assert_eq!(memory.moved, [1, 2, 0, 3]);
    comes_back(&mut memory, &shelf, NOON, &[0, 1, 2, 3]);
    assert_eq!(memory.waves, [0, 1, 0, 1]);
    comes_back(&mut memory, &shelf, NOON, &[]);
    comes_back(&mut memory, &shelf, MORNING, &[0, 1, 2, 3]);
    assert_eq!(memory.waves, [1, 0, 1, 0]);
    assert_eq!(memory.tally.clashes, 3);
}

/// M8 is kept and M9 made: bank 5 loses a clash and keeps its wave.
#[test]
fn coming_back_to_m8() {
    let clashes = [(0, 4), (0, 2), (2, 3), (1, 3), (1, 5), (2, 5)];
    let mut memory = opened(6, &clashes);
    let mut shelf = shelf_for(6);
    keep(&memory, &mut shelf, CLOSE);
    let kept = memory.clone();
    assert_eq!(memory.strike(2, 5).number, 0);
    assert_eq!(memory.waves, [0, 0, 1, 2, 1, 1]);
    memory.moved.fill(9);
    comes_back(&mut memory, &shelf, CLOSE, &[0, 2, 3, 4]);
    assert_eq!(memory.moved, [0, 2, 3, 4, 9, 9]);
    memory.trail = kept.trail.clone();
    memory.moved = kept.moved.clone();
    assert_eq!(memory, kept);
}

#[test]
fn keeping_again_replaces_and_leaves_the_others() {
    let (path, ring) = ([(0, 1), (1, 2), (2, 3)], [(0, 1), (1, 2), (2, 3), (0, 3)]);
    let (path, ring, none) = (opened(4, &path), opened(4, &ring), opened(4, &[]));
    for (place, name) in NAMES.iter().enumerate() {
        let mut shelf = shelf_for(4);
        for other in NAMES {
            keep(&path, &mut shelf, other);
        }
        let before = shelf.clone();
        keep(&ring, &mut shelf, name);
        for (i, (new, old)) in shelf.chunks(205).zip(before.chunks(205)).enumerate() {
            assert_eq!(new == old, i != place, "part {i}");
        }
        let mut memory = none.clone();
        comes_back(&mut memory, &shelf, name, &[1, 3]);
        assert_eq!(memory.held_graph(), ring.held_graph());
        keep(&path, &mut shelf, name);
        assert_eq!(shelf, before);
    }
}

#[test]
fn a_shelf_without_banks() {
    let mut memory = opened(0, &[]);
    let mut shelf = [7; 16];
    assert_eq!(open_shelf(&mut shelf, 0), 0);
    keep(&memory, &mut shelf, NOON);
    assert_eq!(shelf, [0, 7, 7, 7, 7, 1, 0, 0, 0, 24, 0, 7, 7, 7, 7, 7]);
    comes_back(&mut memory, &shelf, NOON, &[]);
    back_refused(&memory, &shelf, CLOSE, 17);
    shelf[6] = 1;
    refused(&memory, &shelf, NOON, 3);
    refused(&memory, &shelf[..14], NOON, 2);
}

/// The ranks come back with the plan, and from then on edits go by them.
#[test]
fn ranks_come_back() {
    let mut memory = opened_with(&[2, 1, 0], &[(0, 1)]);
    let mut shelf = shelf_for(3);
    keep(&memory, &mut shelf, NOON);
    assert_eq!(memory.read_list(b"N 3\n+ 0 1").number, 0);
    assert_eq!(
        (&memory.waves[..], &memory.ranks[..]),
        (&[0, 1, 0][..], &[0; 3][..])
    );
    keep(&memory, &mut shelf, CLOSE);
    comes_back(&mut memory, &shelf, NOON, &[0, 1]);
    assert_eq!(
        (&memory.waves[..], &memory.ranks[..]),
        (&[1, 0, 0][..], &[2, 1, 0][..])
    );
    assert_eq!(memory.strike(0, 1).number, 0);
    assert_eq!(memory.add(1, 2).number, 0);
    assert_eq!(memory.waves, [0, 1, 0]);
    comes_back(&mut memory, &shelf, CLOSE, &[]);
    assert_eq!(
        (&memory.waves[..], &memory.ranks[..]),
        (&[0, 1, 0][..], &[0; 3][..])
    );
}

/// The state comes back that was kept last under its name, whatever was edited since.
#[test]
fn kept_states_come_back() {
    let mut random = Random::new(51);
    for _ in 0..40 {
        let n = random.between(2, 20);
        let mut memory = memory_of(&Graph::empty(n), 3);
        let mut shelf = shelf_for(n as u16);
        let mut kept: [Option<Graph>; 3] = [None, None, None];
        for _ in 0..120 {
            let (a, b) = (random.below(n) as u16, random.below(n) as u16);
            let place = random.below(3);
            match (random.below(9), &kept[place]) {
                (0, _) => {
                    keep(&memory, &mut shelf, NAMES[place]);
                    kept[place] = memory.held_graph();
                }
                (1, None) => back_refused(&memory, &shelf, NAMES[place], 17),
                (1, Some(graph)) => {
                    let (old, new) = (memory.held_graph().unwrap().waves(), graph.waves());
                    let moved: Vec<u16> = (0..n as u16)
                        .filter(|&b| old[usize::from(b)] != new[usize::from(b)])
                        .collect();
                    comes_back(&mut memory, &shelf, NAMES[place], &moved);
                    assert_eq!(memory.held_graph().as_ref(), Some(graph));
                }
                (2 | 3, _) => {
                    memory.strike(a, b);
                }
                (4, _) if random.one_in(4) => {
                    let fields = drawn_fields(&mut random, n, n, 30);
                    let read = memory.read_list(&same_list(n as u16, &fields));
                    assert_eq!(read.number, 0);
                }
                _ => {
                    memory.add(a, b);
                }
            }
        }
    }
}
