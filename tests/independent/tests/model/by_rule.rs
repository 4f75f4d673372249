//! Waves read straight off the rule: on all small graphs, on random ones and on complete ones, and the
//! questions of the call.

use crate::support::{any_graph, memory_of, table, waves_by_lookup};
use independent::graph::{Bank, Graph};
use independent::memory::Memory;
use independent::random::Random;
use independent::ranks::drawn_ranks;

/// The graph of n banks whose clashes are the bits of a number.
fn by_bits(n: usize, bits: u128) -> Graph {
    let pairs = (0..n).flat_map(|b| (0..b).map(move |a| (a, b)));
    let set = pairs
        .enumerate()
        .filter(|(i, _)| bits >> i & 1 == 1)
        .map(|(_, pair)| pair);
    Graph::of(n, set)
}

/// The three ways to the waves agree.
fn agree(graph: &Graph) {
    let waves = graph.waves();
    assert_eq!(waves, waves_by_lookup(&table(graph), graph.ranks()));
    let straight: Vec<usize> = (0..graph.banks()).map(|b| graph.wave_by_rule(b)).collect();
    assert_eq!(straight, waves);
}

#[test]
fn all_graphs_of_up_to_five_banks() {
    let mut random = Random::new(171);
    for n in 0..=5 {
        for bits in 0..1u128 << (n * (n.max(1) - 1) / 2) {
            let graph = by_bits(n, bits);
            agree(&graph);
            agree(&graph.clone().with_ranks((0..n).rev().collect()));
            agree(&graph.with_ranks(drawn_ranks(&mut random, n)));
        }
    }
}

#[test]
fn random_graphs_of_up_to_sixteen_banks() {
    let mut random = Random::new(172);
    for _ in 0..400 {
        agree(&any_graph(&mut random, 16));
    }
}

#[test]
fn complete_graphs() {
    for n in 0..=16 {
        agree(&by_bits(n, u128::MAX));
    }
}

#[test]
fn the_call_asks_its_questions_first() {
    let answer = |memory: &Memory, b: Bank| {
        let answer = memory.wave_by_rule(b as u16);
        (answer.number, answer.wave)
    };
    let sixteen = memory_of(&by_bits(16, u128::MAX), 2);
    assert_eq!(answer(&sixteen, 15), (0, 15));
    assert_eq!(answer(&sixteen, 16), (4, 0));
    let mut memory = memory_of(&Graph::of(17, [(0, 1)]), 2);
    assert_eq!(answer(&memory, 0), (22, 0));
    assert_eq!(answer(&memory, 17), (22, 0));
    memory.waves[0] += 1;
    assert_eq!(answer(&memory, 17), (3, 0));
    memory.degrees.clear();
    assert_eq!(answer(&memory, 0), (2, 0));
    memory.tally.banks = 1025;
    assert_eq!(answer(&memory, 0), (1, 0));
}
