//! How many waves at most: the two bounds on random graphs, where they are met, and where they are not.

use crate::support::{any_graph, memory_of, random_graph, table};
use independent::graph::{number_of_waves, Graph};
use independent::memory::Memory;
use independent::random::Random;

/// The number of waves and its two bounds: that of Welsh and Powell, and the clashes.
fn waves_and_bounds(graph: &Graph) -> (usize, usize, usize) {
    let waves = number_of_waves(&graph.waves());
    let (bound, clashes) = (graph.wave_bound(), graph.clashes());
    assert!(waves <= bound, "{waves} waves, the bound is {bound}");
    assert!(pairs(waves) <= clashes);
    assert!(waves <= 1 + graph.largest_degree() && waves <= 24);
    assert!(bound <= 1 + graph.largest_degree() && bound <= graph.banks());
    (waves, bound, clashes)
}

/// k (k - 1) / 2.
fn pairs(k: usize) -> usize {
    k * k.saturating_sub(1) / 2
}

/// The bound by looking for the first number that too few banks reach: a second definition.
fn bound_by_search(graph: &Graph) -> usize {
    let degree = |row: &Vec<bool>| row.iter().filter(|&&clash| clash).count();
    let degrees: Vec<usize> = table(graph).iter().map(degree).collect();
    let reached = |k: &usize| degrees.iter().filter(|&&d| k - 1 <= d).count() >= *k;
    (1..).take_while(reached).count()
}

/// All clashes of n banks.
fn complete(n: usize) -> Graph {
    Graph::of(n, (0..n).flat_map(|b| (0..b).map(move |a| (a, b))))
}

#[test]
fn the_bounds_hold() {
    let mut random = Random::new(81);
    let (mut met, mut strict) = (0, 0);
    for _ in 0..600 {
        let graph = any_graph(&mut random, 60);
        let (waves, bound, _) = waves_and_bounds(&graph);
        assert_eq!(bound, bound_by_search(&graph));
        *if waves == bound {
            &mut met
        } else {
            &mut strict
        } += 1;
    }
    assert!(met > 20 && strict > 200, "{met} {strict}");
}

#[test]
fn the_bounds_of_many_banks_hold() {
    let mut random = Random::new(82);
    for hot in [24, 40, 1024] {
        let graph = random_graph(&mut random, 1024, hot, 16_000);
        let (_, bound, _) = waves_and_bounds(&graph);
        assert_eq!(bound, bound_by_search(&graph));
    }
}

#[test]
fn complete_plans_meet_both_bounds() {
    for n in 0..=24 {
        assert_eq!(waves_and_bounds(&complete(n)), (n, n, pairs(n)));
    }
}

/// The four banks of the paper: two waves, where the bounds allow three (four banks of degree 2) and
/// three (four clashes).
#[test]
fn a_plan_that_meets_neither_bound() {
    let ring = Graph::of(4, [(0, 1), (1, 2), (2, 3), (0, 3)]);
    assert_eq!(waves_and_bounds(&ring), (2, 3, 4));
}

/// A bank that clashes with all others, which do not clash: two waves, whatever its degree.
#[test]
fn a_star_has_a_bound_of_two() {
    let star = Graph::of(24, (1..24).map(|b| (0, b)));
    assert_eq!(waves_and_bounds(&star), (2, 2, 23));
}

#[test]
fn no_bank_and_no_clash() {
    assert_eq!(waves_and_bounds(&Graph::empty(0)), (0, 0, 0));
    assert_eq!(waves_and_bounds(&Graph::empty(1024)), (1, 1, 0));
}

#[test]
fn the_call_asks_its_questions_first() {
    let ring = Graph::of(4, [(0, 1), (1, 2), (2, 3), (0, 3)]);
    let memory = memory_of(&ring, 2);
    let answer = |memory: &Memory| {
        let answer = memory.wave_bound();
        (answer.number, answer.bound)
    };
    assert_eq!(answer(&memory), (0, 3));
    let mut other = memory.clone();
    other.waves[0] += 1;
    assert_eq!(answer(&other), (3, 0));
    other.degrees.clear();
    assert_eq!(answer(&other), (2, 0));
    other.tally.banks = 1025;
    assert_eq!(answer(&other), (1, 0));
}
