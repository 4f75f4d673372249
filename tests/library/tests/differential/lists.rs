//! Lists: every cell after the pass, whether it was accepted or refused, and the sheet after it.

use crate::call::Call;
use crate::pair::Pair;
use crate::plans::{any_memory, slices, SLICES};
use crate::{quick, rounds};
use independent::list::{n_row, rows, rows_before_n};
use independent::lists;
use independent::random::Random;

#[test]
fn edges() {
    for (seed, case) in (81..).zip(lists::edges()) {
        if quick() && case.list.len() > 1000 {
            continue;
        }
        read(&mut Random::new(seed), &case.list);
    }
}

#[test]
fn malformed_lists() {
    let mut random = Random::new(82);
    let every = if quick() { 40 } else { 1 };
    for list in lists::malformed_lists().iter().step_by(every) {
        read(&mut random, list);
    }
    for list in lists::near_lists().iter().step_by(every) {
        read(&mut random, list);
    }
}

#[test]
fn random_lists() {
    let mut random = Random::new(83);
    for _ in 0..rounds(400) {
        let list = lists::random_list(&mut random);
        read(&mut random, &list);
    }
}

/// K rows before the first edit and after it.
#[test]
fn k_rows_in_every_place() {
    let mut random = Random::new(85);
    let every = if quick() { 10 } else { 1 };
    for (list, number, row) in lists::late_ranks().into_iter().step_by(every) {
        let mut pair = Pair::new(any_memory(&mut random, 4), random.draw());
        let answer = pair.call(&Call::ReadList(list));
        if number != 0 {
            assert_eq!((answer.number, answer.results), (number, vec![row]));
        } else {
            assert!(answer.results != [row]);
        }
    }
}

/// Every rank of one to four digits, plain and padded: of two banks, the one of rank 5000 or the other
/// is earlier.
#[test]
fn every_rank() {
    let mut random = Random::new(86);
    let step = if quick() { 1111 } else { 1 };
    for rank in (0..10_000).step_by(step) {
        for list in [
            format!("N 2\nK 0 {rank}\nK 1 5000\n+ 0 1"),
            format!("N 2\nK 1 5000\nK 0 {rank:04}\n+ 0 1"),
        ] {
            let mut pair = Pair::new(any_memory(&mut random, 2), random.draw());
            assert_eq!(pair.call(&Call::ReadList(list.into_bytes())).number, 0);
            assert_eq!(pair.model.waves[0], u16::from(rank > 5000));
        }
    }
}

/// A depot under two numberings, all ranks different: the waves correspond.
#[test]
fn renumbered_depots() {
    let mut random = Random::new(87);
    for round in 0..rounds(60) {
        let most = if round % 20 == 19 { 300 } else { 40 };
        let depot = lists::renumbered(&mut random, most);
        let n = depot.numbers.len();
        let [one, other] = [depot.list, depot.other].map(|list| {
            let mut pair = Pair::new(any_memory(&mut random, n), random.draw());
            assert_eq!(pair.call(&Call::ReadList(list)).number, 0);
            pair.model.waves
        });
        for (b, &new) in depot.numbers.iter().enumerate() {
            assert_eq!(one[b], other[new], "bank {b}, now {new}");
        }
    }
}

/// A list of 60,000 bytes that adds and strikes the same clashes again and again, the same list
/// with its last row cut short, and the list with one byte more.
#[test]
fn long_lists() {
    let mut random = Random::new(84);
    let mut list = b"N 9\nK 4 1\nK 0 9\nK 7 1".to_vec();
    let mut there = [[false; 9]; 9];
    while list.len() + 6 <= 60_000 {
        let (a, b) = (random.below(9), random.below(9));
        if a != b {
            let (low, high) = (a.min(b), a.max(b));
            let sign = if there[low][high] { '-' } else { '+' };
            there[low][high] ^= true;
            list.extend(format!("\n{sign} {a} {b}").bytes());
        }
    }
    list.resize(60_000, b'\n');
    if quick() {
        list.drain(3..57_003);
    }
    read(&mut random, &list);
    list.pop();
    list.pop();
    read(&mut random, &list);
    list.resize(60_001, b'\n');
    read(&mut random, &list);
}

/// Reads the list into memory of any content, as a rule with room for its banks; then writes the
/// sheet and the poster.
fn read(random: &mut Random, list: &[u8]) {
    let all = rows(list);
    let first = all.get(rows_before_n(&all)).and_then(|row| n_row(row));
    let n = first.unwrap_or(4).min(1024);
    let mut memory = any_memory(random, n);
    if random.one_in(12) && n > 0 {
        let slice = random.below(SLICES);
        slices(&mut memory)[slice].truncate(n - 1);
    }
    let mut pair = Pair::new(memory, random.draw());
    pair.call(&Call::ReadList(list.to_vec()));
    pair.call(&Call::WriteSheet(5000));
    pair.call(&Call::WritePoster(8200));
}
