//! Posters: waves at the edges of lines and pages; outputs that just fit, are too short or have
//! bytes to spare.

use crate::call::Call;
use crate::pair::Pair;
use crate::plans::{bank_count, blocks, graph, memory_of, poster_length};
use crate::{quick, rounds};
use independent::graph::Graph;
use independent::random::Random;

/// The poster of a plan: into an output that just fits and a longer one; a shorter one gets 12.
fn written(random: &mut Random, graph: &Graph) -> usize {
    let memory = memory_of(random, graph);
    let length = poster_length(&memory);
    let mut pair = Pair::new(memory, random.draw());
    for space in [length, length + random.between(1, 100)] {
        assert_eq!(pair.call(&Call::WritePoster(space)).results, [length]);
    }
    for space in [0, random.below(length), length - 1] {
        assert_eq!(pair.call(&Call::WritePoster(space)).number, 12);
    }
    length
}

#[test]
fn posters_of_random_plans() {
    let mut random = Random::new(93);
    for round in 0..rounds(400) {
        let most = if round % 20 == 0 { 1024 } else { 60 };
        let n = bank_count(&mut random, most);
        let graph = graph(&mut random, n);
        written(&mut random, &graph);
    }
}

/// All sizes of one wave: none, 7, 8 and 14 banks, 50 and 51 lines, 1,024 banks among them.
#[test]
fn one_wave_of_any_size() {
    let mut random = Random::new(94);
    let step = if quick() { 93 } else { 1 };
    for n in (0..=1024).step_by(step).chain([7, 8, 14, 343, 344, 1024]) {
        let lines = (n + 6) / 7 + 1;
        let pages = (lines + 49) / 50;
        assert_eq!(written(&mut random, &Graph::empty(n)), 2050 * pages);
    }
}

/// 24 waves, and the most lines: 1,001 banks in the first wave and one in each other.
#[test]
fn plans_of_24_waves() {
    let mut random = Random::new(95);
    for n in [24, 191, 192, 350, 1023, 1024] {
        written(&mut random, &blocks(n, 24));
    }
    let clashes = (0..24).flat_map(|a| (0..a).map(move |b| (a, b)));
    assert_eq!(written(&mut random, &Graph::of(1024, clashes)), 8200);
}
