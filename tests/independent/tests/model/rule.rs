//! The rule order and the rule waves on random graphs.

use crate::support::{any_graph, places, random_graph, table, waves_by_lookup};
use independent::graph::{number_of_waves, Graph};
use independent::random::Random;

/// The wave of each bank is the smallest number not held by an earlier bank that clashes with it.
fn follows_rule(graph: &Graph) {
    let waves = graph.waves();
    for b in 0..graph.banks() {
        let held_before = |wave| {
            let holds = |q| graph.clash(b, q) && graph.earlier(q, b) && waves[q] == wave;
            (0..graph.banks()).any(holds)
        };
        assert!(
            !held_before(waves[b]),
            "an earlier neighbour of {b} holds its wave"
        );
        assert!(
            (0..waves[b]).all(held_before),
            "a lower wave is free for {b}"
        );
    }
}

#[test]
fn each_wave_is_the_rule_s() {
    let mut random = Random::new(1);
    for _ in 0..300 {
        follows_rule(&any_graph(&mut random, 60));
    }
}

#[test]
fn large_graphs_follow_the_rule() {
    let mut random = Random::new(2);
    for hot in [24, 40, 1024] {
        follows_rule(&random_graph(&mut random, 1024, hot, 16_000));
    }
}

#[test]
fn waves_are_those_found_by_lookup() {
    let mut random = Random::new(3);
    for _ in 0..300 {
        let graph = any_graph(&mut random, 60);
        assert_eq!(
            graph.waves(),
            waves_by_lookup(&table(&graph), graph.ranks())
        );
    }
}

#[test]
fn order_has_each_bank_at_its_place() {
    let mut random = Random::new(4);
    for _ in 0..300 {
        let graph = any_graph(&mut random, 60);
        let places = places(&table(&graph), graph.ranks());
        let order = graph.order();
        assert_eq!(order.len(), graph.banks());
        for (place, &b) in order.iter().enumerate() {
            assert_eq!(place, places[b]);
        }
        for p in 0..graph.banks() {
            for q in 0..graph.banks() {
                assert_eq!(graph.earlier(p, q), places[p] < places[q]);
            }
        }
    }
}

#[test]
fn random_graphs_have_many_waves_and_full_degrees() {
    let mut random = Random::new(5);
    let graphs: Vec<Graph> = (0..300).map(|_| any_graph(&mut random, 60)).collect();
    let waves = graphs.iter().map(|graph| number_of_waves(&graph.waves()));
    assert!(waves.max() >= Some(12));
    let full = |graph: &Graph| (0..graph.banks()).any(|b| graph.degree(b) == 23);
    assert!(graphs.iter().any(full));
}
