//! How many waves at most: the call on random plans, where its bound is met, and where it is not.

use crate::call::Call;
use crate::pair::Pair;
use crate::plans::{bank_count, blocks, graph, memory_of};
use crate::{quick, rounds};
use independent::graph::Graph;
use independent::random::Random;
use wave_plan::{Bank, Plan};

/// What the call answers of the plan of a graph, beside the tally's clashes and waves.
struct Bounded {
    bound: usize,
    clashes: usize,
    waves: usize,
}

/// The call on library and model. Both bounds hold.
fn bounded(random: &mut Random, graph: &Graph) -> Bounded {
    let memory = memory_of(random, graph);
    let mut pair = Pair::new(memory, random.draw());
    let answer = pair.call(&Call::WaveBound);
    assert_eq!(answer.number, 0);
    let tally = pair.model.tally;
    let found = Bounded {
        bound: answer.results[0],
        clashes: tally.clashes.into(),
        waves: tally.waves.into(),
    };
    assert!(found.waves <= found.bound && found.bound <= 24);
    assert!(found.bound <= 1 + graph.largest_degree() && found.bound <= graph.banks());
    assert!(pairs(found.waves) <= found.clashes);
    found
}

/// k (k - 1) / 2.
fn pairs(k: usize) -> usize {
    k * k.saturating_sub(1) / 2
}

#[test]
fn bounds_of_random_plans() {
    let mut random = Random::new(131);
    let (mut met, mut strict, mut full) = (0, 0, 0);
    for _ in 0..rounds(2000) {
        let n = bank_count(&mut random, 1024);
        let graph = graph(&mut random, n);
        let found = bounded(&mut random, &graph);
        met += usize::from(found.waves == found.bound);
        strict += usize::from(found.waves < found.bound);
        full += usize::from(found.bound == 24);
    }
    if !quick() {
        assert!(
            met > 300 && strict > 300 && full > 100,
            "{met} {strict} {full}"
        );
    }
}

#[test]
fn complete_plans_meet_both_bounds() {
    let mut random = Random::new(132);
    for n in 0..=24 {
        let found = bounded(&mut random, &blocks(n, n.max(1)));
        assert_eq!((found.waves, found.bound), (n, n));
        assert_eq!(found.clashes, pairs(n));
    }
}

/// Four banks in a ring: two waves, where the bounds allow three; and 1,024 in one.
#[test]
fn plans_that_meet_neither_bound() {
    let mut random = Random::new(133);
    for n in [4, 1024] {
        let ring = Graph::of(n, (0..n).map(|b| (b, (b + 1) % n)));
        let found = bounded(&mut random, &ring);
        assert_eq!((found.waves, found.bound), (2, 3));
        assert!(pairs(found.waves) < found.clashes);
    }
}

/// The wrapper that owns its memory: a complete plan of 24 banks, clash by clash.
#[test]
fn bound_of_an_owned_plan() {
    let mut plan = Plan::open(24).expect("opened");
    assert_eq!(plan.wave_bound(), Ok(1));
    for b in 0..24 {
        for a in 0..b {
            plan.add(Bank(a), Bank(b)).expect("added");
        }
        assert_eq!(plan.wave_bound(), Ok(b + 1));
    }
    let sheet = plan.sheet().expect("a sheet");
    assert!(sheet.starts_with("WAVES 24\n"), "{sheet}");
}
