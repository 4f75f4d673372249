//! Random lists of all sizes, whole or damaged.

use super::{malformed_n_rows, malformed_rows, LIKELY_BYTES};
use crate::plan::MAX_RANK;
use crate::random::Random;
use crate::ranks::drawn_settings;

/// A random list, damaged in one of three cases.
pub fn random_list(random: &mut Random) -> Vec<u8> {
    let list = if random.one_in(6) {
        dense_list(random)
    } else {
        let n = random_size(random);
        let most = if n > 200 { 80 } else { 400 };
        let (hot, draws) = (random.between(2, 40), random.below(most + 1));
        drawn_list(random, n, hot, draws)
    };
    if random.one_in(3) {
        damaged(random, list)
    } else {
        list
    }
}

/// A random list with many waves and full degrees.
fn dense_list(random: &mut Random) -> Vec<u8> {
    let (n, hot) = (random.between(24, 60), random.between(24, 30));
    let draws = random.between(500, 1000);
    drawn_list(random, n, hot, draws)
}

/// A random list of the most banks and nearly the most bytes.
pub fn long_list(random: &mut Random) -> Vec<u8> {
    let mut list = drawn_list(random, 1024, 1024, 8000);
    list.truncate(60_000);
    let last = list.iter().rposition(|&byte| byte == b'\n');
    list.truncate(last.map_or(0, |place| place + 1));
    list
}

/// A bank count of one of the orders of size.
fn random_size(random: &mut Random) -> usize {
    match random.below(20) {
        0 => random.between(0, 2),
        1 => random.between(201, 1024),
        2 => *random.pick(&[24, 25, 1023, 1024]),
        3..=5 => random.between(41, 200),
        6..=10 => random.between(2, 10),
        _ => random.between(11, 40),
    }
}

/// A list in the making: its rows, and the clashes that they leave.
struct Draft {
    n: usize,
    v2: bool,
    rows: Vec<String>,
    clashes: Vec<(usize, usize)>,
    degrees: Vec<usize>,
}

/// A list of n banks: K rows as a rule, then edits. Each draw gives at most one row; banks below
/// `hot` are drawn more often. One list in four has a stray row, one in 40 a stray K row before the
/// edits. One in four starts with `V 2`, and has no D row but a stray one.
fn drawn_list(random: &mut Random, n: usize, hot: usize, draws: usize) -> Vec<u8> {
    let mut draft = Draft::new(n);
    draft.v2 = random.one_in(4);
    draft.rows.push(format!("N {n}"));
    for (b, rank) in drawn_settings(random, n) {
        draft.rows.push(format!("K {b} {rank}"));
    }
    if random.one_in(40) {
        draft.stray_rank(random);
    }
    let strikes = random.between(2, 30);
    let stray = random.one_in(4).then(|| random.between(draws / 2, draws));
    for draw in 0..draws {
        draft.draw_row(random, hot.min(n), strikes);
        if stray == Some(draw) {
            draft.stray_row(random);
        }
    }
    let mut rows: Vec<String> = draft.rows.iter().map(|row| padded(random, row)).collect();
    if draft.v2 {
        rows.insert(0, "V 2".to_string());
    }
    let mut list = rows.join("\n").into_bytes();
    if random.one_in(2) {
        list.push(b'\n');
    }
    list
}

/// Edit rows of n banks from so many draws, each accepted after those before it.
pub(super) fn accepted_rows(
    random: &mut Random,
    n: usize,
    hot: usize,
    draws: usize,
) -> Vec<String> {
    let mut draft = Draft::new(n);
    let strikes = random.between(2, 30);
    for _ in 0..draws {
        draft.draw_row(random, hot.min(n), strikes);
    }
    draft.rows
}

/// The row with its numbers padded, in one case of eight.
fn padded(random: &mut Random, row: &str) -> String {
    if !random.one_in(8) {
        return row.to_string();
    }
    let pad = |part: &str| match part.parse::<usize>() {
        Ok(number) if part.len() < 4 => format!("{number:04}"),
        _ => part.to_string(),
    };
    row.split(' ').map(pad).collect::<Vec<_>>().join(" ")
}

impl Draft {
    /// No row yet, n banks without a clash.
    fn new(n: usize) -> Draft {
        Draft {
            n,
            v2: false,
            rows: Vec::new(),
            clashes: Vec::new(),
            degrees: vec![0; n],
        }
    }

    /// One more row that is accepted, or none.
    fn draw_row(&mut self, random: &mut Random, hot: usize, strikes: usize) {
        if self.n < 2 {
            return;
        }
        if !self.v2 && random.one_in(100) {
            let b = random.below(self.n);
            self.strike_all(b);
        } else if random.one_in(strikes) && !self.clashes.is_empty() {
            let place = random.below(self.clashes.len());
            self.strike(random, place);
        } else {
            let range = if random.one_in(3) { self.n } else { hot };
            let (a, b) = (random.below(range), random.below(range));
            self.add(a, b);
        }
    }

    fn add(&mut self, a: usize, b: usize) {
        let there = self.clashes.contains(&(a, b)) || self.clashes.contains(&(b, a));
        if a != b && !there && self.degrees[a] < 23 && self.degrees[b] < 23 {
            self.rows.push(format!("+ {a} {b}"));
            self.clashes.push((a, b));
            self.degrees[a] += 1;
            self.degrees[b] += 1;
        }
    }

    fn strike(&mut self, random: &mut Random, place: usize) {
        let (a, b) = self.clashes.swap_remove(place);
        let (a, b) = if random.one_in(2) { (a, b) } else { (b, a) };
        self.rows.push(format!("- {a} {b}"));
        self.degrees[a] -= 1;
        self.degrees[b] -= 1;
    }

    fn strike_all(&mut self, bank: usize) {
        self.rows.push(format!("D {bank}"));
        for &(a, b) in self
            .clashes
            .iter()
            .filter(|&&(a, b)| a == bank || b == bank)
        {
            self.degrees[a] -= 1;
            self.degrees[b] -= 1;
        }
        self.clashes.retain(|&(a, b)| a != bank && b != bank);
    }

    /// A row of good form that is likely to be refused. The draft's clashes are left as they are.
    fn stray_row(&mut self, random: &mut Random) {
        let (a, b) = (random.below(self.n + 2), random.below(self.n + 2));
        let (c, d) = *self.clashes.first().unwrap_or(&(0, 0));
        let full = self.degrees.iter().position(|&degree| degree == 23);
        let row = match (full, random.below(12)) {
            (Some(full), 0..=5) => format!("+ {a} {full}"),
            (_, 0 | 6) => format!("+ {a} {a}"),
            (_, 1 | 7) => format!("- {a} {b}"),
            (_, 2) => format!("D {}", self.n),
            (_, 9) if self.v2 => format!("D {a}"),
            (_, 3 | 8) => format!("+ {d} {c}"),
            (_, 4) => format!("+ {a} {}", self.n),
            (_, 10 | 11) => return self.stray_rank(random),
            _ => format!("+ {a} {}", random.below(10_000)),
        };
        self.rows.push(row);
    }

    /// A K row of a bank that is there or not.
    fn stray_rank(&mut self, random: &mut Random) {
        let b = random.below(self.n + 2);
        let rank = random.below(MAX_RANK + 1);
        self.rows.push(format!("K {b} {rank}"));
    }
}

/// A list damaged in one or two places, in bytes or in rows.
fn damaged(random: &mut Random, mut list: Vec<u8>) -> Vec<u8> {
    for _ in 0..random.between(1, 2) {
        list = if random.one_in(2) {
            byte_damage(random, list)
        } else {
            row_damage(random, &list)
        };
    }
    list
}

fn byte_damage(random: &mut Random, mut list: Vec<u8>) -> Vec<u8> {
    if list.is_empty() {
        return list;
    }
    let place = random.below(list.len());
    let byte = if random.one_in(3) {
        random.byte()
    } else {
        *random.pick(LIKELY_BYTES)
    };
    match random.below(5) {
        0 => list[place] = byte,
        1 => list.insert(place, byte),
        2 => list.push(byte),
        3 => list.truncate(place),
        _ => {
            list.remove(place);
        }
    }
    list
}

fn row_damage(random: &mut Random, list: &[u8]) -> Vec<u8> {
    let mut rows: Vec<Vec<u8>> = list
        .split(|&byte| byte == b'\n')
        .map(<[u8]>::to_vec)
        .collect();
    let (one, other) = (random.below(rows.len()), random.below(rows.len()));
    match random.below(6) {
        0 => rows.swap(one, other),
        1 => rows.insert(one, rows[other].clone()),
        2 => rows.insert(one, random.pick(&malformed_rows()).clone()),
        3 => rows[0] = random.pick(&malformed_n_rows()).clone(),
        4 => rows[0] = format!("N {}", random.below(2000)).into_bytes(),
        _ => {
            rows.remove(one);
        }
    }
    rows.join(&b'\n')
}
