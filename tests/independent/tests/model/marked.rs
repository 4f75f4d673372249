//! The marked examples M1 to M9: waves, number of waves, trail, moved.

use crate::support::opened;
use independent::calls::EditAnswer;
use independent::memory::Memory;

/// Waves by bank number and number of waves.
fn shows(memory: &Memory, waves: &[u16], k: u16) {
    assert_eq!(memory.waves, waves);
    assert_eq!(memory.tally.waves, k);
    for (b, &wave) in waves.iter().enumerate() {
        assert_eq!(memory.wave_of(b as u16).wave, wave);
    }
}

/// Trail and moved of an accepted edit; the cells after them are as before.
fn reached(old: &Memory, new: &Memory, answer: EditAnswer, trail: &[u16], moved: &[u16]) {
    let counts = EditAnswer {
        number: 0,
        moved: moved.len(),
        trail: trail.len(),
    };
    assert_eq!(answer, counts);
    assert_eq!(new.trail[..trail.len()], *trail);
    assert_eq!(new.moved[..moved.len()], *moved);
    assert_eq!(new.trail[trail.len()..], old.trail[trail.len()..]);
    assert_eq!(new.moved[moved.len()..], old.moved[moved.len()..]);
}

fn add(memory: &mut Memory, a: u16, b: u16, trail: &[u16], moved: &[u16]) {
    let old = memory.clone();
    let answer = memory.add(a, b);
    reached(&old, memory, answer, trail, moved);
}

fn strike(memory: &mut Memory, a: u16, b: u16, trail: &[u16], moved: &[u16]) {
    let old = memory.clone();
    let answer = memory.strike(a, b);
    reached(&old, memory, answer, trail, moved);
}

#[test]
fn m1() {
    let memory = opened(0, &[]);
    shows(&memory, &[], 0);
    let mut output = [b'?'; 20];
    let answer = memory.write_sheet(&mut output);
    assert_eq!((answer.number, answer.length), (0, 18));
    assert_eq!(&output, b"WAVES 0\nTOTAL 0 0\n??");
}

#[test]
fn m2_to_m4() {
    let mut memory = opened(3, &[]);
    add(&mut memory, 1, 2, &[1, 2], &[2]);
    shows(&memory, &[0, 0, 1], 2);
    add(&mut memory, 0, 1, &[1, 0], &[0]);
    shows(&memory, &[1, 0, 1], 2);
    add(&mut memory, 0, 2, &[0, 1, 2], &[0, 1, 2]);
    shows(&memory, &[0, 1, 2], 3);
}

#[test]
fn m5_to_m7() {
    let mut memory = opened(4, &[(0, 1), (1, 2), (2, 3)]);
    shows(&memory, &[1, 0, 1, 0], 2);
    add(&mut memory, 0, 3, &[0, 1, 2, 3], &[0, 1, 2, 3]);
    shows(&memory, &[0, 1, 0, 1], 2);
    strike(&mut memory, 0, 3, &[1, 2, 0, 3], &[1, 2, 0, 3]);
    shows(&memory, &[1, 0, 1, 0], 2);
}

#[test]
fn m8_to_m9() {
    let clashes = [(0, 4), (0, 2), (2, 3), (1, 3), (1, 5), (2, 5)];
    let mut memory = opened(6, &clashes);
    shows(&memory, &[1, 0, 0, 1, 0, 1], 2);
    strike(&mut memory, 2, 5, &[0, 2, 3, 4, 5], &[0, 2, 3, 4]);
    shows(&memory, &[0, 0, 1, 2, 1, 1], 3);
}

#[test]
fn the_named_banks_may_come_in_either_order() {
    let mut one = opened(6, &[(0, 4), (0, 2), (2, 3), (1, 3), (1, 5), (2, 5)]);
    let mut other = opened(6, &[(5, 2), (4, 0), (3, 1), (2, 0), (3, 2), (5, 1)]);
    one.trail.fill(9);
    one.moved.fill(9);
    other.trail.fill(9);
    other.moved.fill(9);
    assert_eq!(one, other);
    assert_eq!(one.strike(2, 5), other.strike(5, 2));
    assert_eq!(one, other);
}
