//! Waves read straight off the rule: on all small plans, on random ones and on complete ones, and where
//! the kept waves are wrong.

use crate::call::Call;
use crate::pair::Pair;
use crate::plans::{blocks, graph, memory_of};
use crate::{quick, rounds};
use independent::graph::Graph;
use independent::random::Random;
use independent::ranks::drawn_ranks;
use wave_plan::{Bank, Plan, Refusal};

/// The call for each bank, on library and model, and for one that is not there: the kept wave, or 4.
fn kept_waves(random: &mut Random, graph: &Graph) {
    let memory = memory_of(random, graph);
    let mut pair = Pair::new(memory, random.draw());
    for (b, wave) in graph.waves().into_iter().enumerate() {
        let b = b as u16;
        let straight = pair.call(&Call::WaveByRule(b));
        assert_eq!((straight.number, straight.results[0]), (0, wave));
        assert_eq!(pair.call(&Call::WaveOf(b)).results[0], wave);
    }
    let none = pair.call(&Call::WaveByRule(graph.banks() as u16));
    assert_eq!((none.number, none.results[0]), (4, 0));
}

/// The graph of n banks whose clashes are the bits of a number.
fn by_bits(n: usize, bits: usize) -> Graph {
    let pairs = (0..n).flat_map(|b| (0..b).map(move |a| (a, b)));
    let set = pairs
        .enumerate()
        .filter(|(i, _)| bits >> i & 1 == 1)
        .map(|(_, pair)| pair);
    Graph::of(n, set)
}

#[test]
fn all_plans_of_up_to_five_banks() {
    let mut random = Random::new(181);
    for n in 0..=5 {
        let all = 1 << (n * (n.max(1) - 1) / 2);
        let step = if quick() { 41 } else { 1 };
        for bits in (0..all).step_by(step) {
            let graph = by_bits(n, bits);
            kept_waves(&mut random, &graph);
            let ranks = drawn_ranks(&mut random, n);
            kept_waves(&mut random, &graph.with_ranks(ranks));
        }
    }
}

#[test]
fn random_plans_of_up_to_sixteen_banks() {
    let mut random = Random::new(182);
    for _ in 0..rounds(800) {
        let n = random.between(6, 16);
        let graph = graph(&mut random, n);
        kept_waves(&mut random, &graph);
    }
}

#[test]
fn complete_plans() {
    let mut random = Random::new(183);
    for n in 0..=16 {
        let ranks = drawn_ranks(&mut random, n);
        kept_waves(&mut random, &blocks(n, n.max(1)).with_ranks(ranks));
    }
}

/// More than 16 banks: 22, before 4 and after 3.
#[test]
fn more_banks() {
    let mut random = Random::new(184);
    for n in [17, 18, 30, 1024] {
        let graph = graph(&mut random, n);
        let mut memory = memory_of(&mut random, &graph);
        let mut pair = Pair::new(memory.clone(), random.draw());
        for b in [0, n - 1, n, 65_535] {
            assert_eq!(pair.call(&Call::WaveByRule(b as u16)).number, 22);
        }
        memory.waves[n - 1] += 1;
        let mut pair = Pair::new(memory, random.draw());
        assert_eq!(pair.call(&Call::WaveByRule(0)).number, 3);
    }
}

/// The wrapper that owns its memory: each edit of a plan of 16 banks, until all clash.
#[test]
fn waves_of_an_owned_plan() {
    let mut plan = Plan::open(16).expect("opened");
    for b in 0..16 {
        for a in 0..b {
            plan.add(Bank(a), Bank(b)).expect("added");
        }
        for x in 0..=b {
            let kept = plan.wave_of(Bank(x)).expect("kept");
            assert_eq!(plan.wave_by_rule(Bank(x)), Ok(kept));
        }
    }
    let refused = plan.wave_by_rule(Bank(16)).expect_err("no such bank");
    assert_eq!(refused.refusal, Refusal::NoSuchBank);
}
