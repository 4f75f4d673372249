//! Ranks for the tests, the same in each run: all 0, few different ones with many ties, all
//! different, any; and new numbers for banks.

use crate::graph::{Bank, Rank};
use crate::plan::MAX_RANK;
use crate::random::Random;

/// Ranks of n banks, of one of the kinds.
pub fn drawn_ranks(random: &mut Random, n: usize) -> Vec<Rank> {
    match random.below(6) {
        0 => vec![0; n],
        1 => different_ranks(random, n),
        2 => (0..n).rev().collect(),
        3 => random_ranks(random, n),
        _ => {
            let limit = random.between(2, 5);
            ranks_below(random, n, limit)
        }
    }
}

/// Ranks of n banks below the limit.
fn ranks_below(random: &mut Random, n: usize, limit: usize) -> Vec<Rank> {
    let step = if random.one_in(3) {
        MAX_RANK / (limit - 1)
    } else {
        1
    };
    (0..n).map(|_| step * random.below(limit)).collect()
}

/// Ranks of n banks, each any rank.
pub fn random_ranks(random: &mut Random, n: usize) -> Vec<Rank> {
    (0..n).map(|_| random.below(MAX_RANK + 1)).collect()
}

/// Ranks of n banks of which no two are equal.
pub fn different_ranks(random: &mut Random, n: usize) -> Vec<Rank> {
    shuffled(random, MAX_RANK + 1).into_iter().take(n).collect()
}

/// The numbers below n in a random order: the banks in the order of a street, or new numbers for
/// them.
pub fn shuffled(random: &mut Random, n: usize) -> Vec<Bank> {
    let mut numbers: Vec<Bank> = (0..n).collect();
    for place in (1..n).rev() {
        numbers.swap(place, random.below(place + 1));
    }
    numbers
}

/// Ranks given one after the other, as rows or fields do: pairs of a bank and its rank, in any
/// order, some banks more than once and some not at all. None in one case of three.
pub fn drawn_settings(random: &mut Random, n: usize) -> Vec<(Bank, Rank)> {
    if n == 0 || random.one_in(3) {
        return Vec::new();
    }
    let ranks = drawn_ranks(random, n);
    let mut settings: Vec<(Bank, Rank)> = (0..random.below(n.min(40)))
        .map(|_| (random.below(n), random.below(MAX_RANK + 1)))
        .collect();
    let order = if random.one_in(2) {
        shuffled(random, n)
    } else {
        (0..n).collect()
    };
    let most = if random.one_in(2) { n } else { n.min(60) };
    settings.extend(order.into_iter().take(most).map(|b| (b, ranks[b])));
    settings
}
