//! Crews: days worked out by hand, what each day must be on random plans, the least crew, the questions of
//! both calls, and the lines of the program.

use crate::support::{any_graph, memory_of, opened, random_graph};
use independent::crew::{least_crew, program_output, served_day, Asked, Step};
use independent::graph::Graph;
use independent::memory::Memory;
use independent::random::Random;

fn step(wave: usize, banks: &[usize]) -> Step {
    let banks = banks.to_vec();
    Step { wave, banks }
}

/// Waves 0 1 0 0 2 0 1: the first has four banks, the second two, the third one.
#[test]
fn days_by_hand() {
    let waves = [0, 1, 0, 0, 2, 0, 1];
    let one = [(0, 0), (0, 2), (0, 3), (0, 5), (1, 1), (1, 6), (2, 4)];
    let one: Vec<Step> = one.iter().map(|&(wave, b)| step(wave, &[b])).collect();
    assert_eq!(served_day(&waves, 1), one);
    let two = [
        step(0, &[0, 2]),
        step(0, &[3, 5]),
        step(1, &[1, 6]),
        step(2, &[4]),
    ];
    assert_eq!(served_day(&waves, 2), two);
    let three = [
        step(0, &[0, 2, 3]),
        step(0, &[5]),
        step(1, &[1, 6]),
        step(2, &[4]),
    ];
    assert_eq!(served_day(&waves, 3), three);
    let four = [step(0, &[0, 2, 3, 5]), step(1, &[1, 6]), step(2, &[4])];
    for couriers in [4, 5, 64] {
        assert_eq!(served_day(&waves, couriers), four);
    }
    assert_eq!(served_day(&[], 1), []);
    let least = [
        None,
        None,
        None,
        Some(4),
        Some(2),
        Some(2),
        Some(2),
        Some(1),
    ];
    for (limit, least) in least.into_iter().enumerate() {
        assert_eq!(least_crew(&waves, limit), least);
    }
}

/// Each bank is served once, in a step of its wave; a step has banks of one wave, at most as many as there are
/// couriers, and only the last of a wave has fewer; waves follow each other, and in a wave banks do.
fn is_served(waves: &[usize], couriers: usize) {
    let day = served_day(waves, couriers);
    let mut served: Vec<usize> = Vec::new();
    for (i, step) in day.iter().enumerate() {
        assert!(!step.banks.is_empty() && step.banks.len() <= couriers);
        assert!(step.banks.iter().all(|&b| waves[b] == step.wave));
        if let Some(next) = day.get(i + 1) {
            let goes_on = next.wave == step.wave;
            assert!(goes_on || next.wave == step.wave + 1);
            assert!(!goes_on || step.banks.len() == couriers);
        }
        served.extend(&step.banks);
    }
    let mut by_wave: Vec<usize> = (0..waves.len()).collect();
    by_wave.sort_by_key(|&b| waves[b]);
    assert_eq!(served, by_wave);
    assert_eq!(day.len(), rounded_up(waves, couriers));
}

/// The sum over the waves of their sizes divided by the couriers, each rounded up.
fn rounded_up(waves: &[usize], couriers: usize) -> usize {
    let size = |w| waves.iter().filter(|&&wave| wave == w).count();
    (0..24).map(|w| (size(w) + couriers - 1) / couriers).sum()
}

#[test]
fn days_on_random_plans() {
    let mut random = Random::new(221);
    for round in 0..250 {
        let most = if round % 25 == 0 { 1024 } else { 100 };
        let waves = any_graph(&mut random, most).waves();
        for couriers in [1, 2, 3, random.between(1, 64), 63, 64] {
            is_served(&waves, couriers);
        }
    }
    for couriers in 1..=64 {
        is_served(&vec![0; 200], couriers);
        is_served(&(0..24).collect::<Vec<_>>(), couriers);
    }
}

#[test]
fn no_smaller_crew_ends_in_time() {
    let mut random = Random::new(222);
    for _ in 0..60 {
        let n = random.between(1, 300);
        let tries = random.below(4 * n);
        let waves = random_graph(&mut random, n, n, tries).waves();
        for limit in [random.below(20), random.below(100), n - 1, n, 1024] {
            let ends = |&couriers: &usize| rounded_up(&waves, couriers) <= limit;
            assert_eq!(least_crew(&waves, limit), (1..=64).find(ends));
        }
    }
    assert_eq!(least_crew(&vec![0; 1024], 16), Some(64));
    assert_eq!(least_crew(&vec![0; 1024], 15), None);
    assert_eq!(least_crew(&vec![0; 1024], 1024), Some(1));
    assert_eq!(least_crew(&vec![0; 1024], 1023), Some(2));
}

/// The steps of the call, with one cell more than there are banks.
fn steps(memory: &Memory, couriers: u16) -> (u16, usize, Vec<u16>) {
    let mut steps = vec![7777; usize::from(memory.tally.banks) + 1];
    let answer = memory.crew_steps(couriers, &mut steps);
    (answer.number, answer.total, steps)
}

#[test]
fn steps_by_bank() {
    let memory = opened(5, &[(0, 1), (1, 2)]); // waves 1 0 1 0 0
    assert_eq!(steps(&memory, 1), (0, 5, vec![4, 1, 5, 2, 3, 7777]));
    assert_eq!(steps(&memory, 2), (0, 3, vec![3, 1, 3, 1, 2, 7777]));
    assert_eq!(steps(&memory, 3), (0, 2, vec![2, 1, 2, 1, 1, 7777]));
    assert_eq!(steps(&memory, 64), (0, 2, vec![2, 1, 2, 1, 1, 7777]));
    assert_eq!(
        steps(&memory_of(&Graph::empty(0), 0), 1),
        (0, 0, vec![7777])
    );
}

/// 1, 2, 3, 24, and 25 for the least crew; refused, nothing is written.
#[test]
fn the_calls_ask_their_questions_first() {
    let mut memory = memory_of(&Graph::of(130, [(0, 1)]), 2);
    let refused = |memory: &Memory, couriers: u16, cells: usize| {
        let mut steps = vec![7777; cells];
        let answer = memory.crew_steps(couriers, &mut steps);
        assert_eq!(answer.total, 0);
        assert!(steps.iter().all(|&cell| cell == 7777));
        answer.number
    };
    let least = |memory: &Memory, limit: u16| {
        let answer = memory.least_crew(limit);
        (answer.number, answer.couriers)
    };
    for couriers in [0, 65, 66, 1024, 65_535] {
        assert_eq!(refused(&memory, couriers, 130), 24);
    }
    assert_eq!(refused(&memory, 0, 129), 2);
    assert_eq!(refused(&memory, 1, 129), 2);
    for limit in [0, 1, 2, 3] {
        assert_eq!(least(&memory, limit), (25, 0)); // 129 banks and one
    }
    assert_eq!(least(&memory, 4), (0, 43));
    assert_eq!(least(&memory, 1024), (0, 1));
    for limit in [1025, 65_535] {
        assert_eq!(least(&memory, limit), (24, 0));
    }
    memory.waves[0] += 1;
    assert_eq!(refused(&memory, 0, 130), 3);
    assert_eq!(refused(&memory, 1, 130), 3);
    assert_eq!(least(&memory, 0), (3, 0));
    assert_eq!(least(&memory, 1025), (3, 0));
    assert_eq!(refused(&memory, 1, 129), 2);
    memory.degrees.clear();
    assert_eq!(refused(&memory, 1, 130), 2);
    assert_eq!(least(&memory, 4), (2, 0));
    memory.tally.banks = 1025;
    assert_eq!(refused(&memory, 0, 0), 1);
    assert_eq!(least(&memory, 1025), (1, 0));
}

/// Without banks the day ends in 0 steps: the least crew is 1 for every limit.
#[test]
fn no_banks() {
    let memory = memory_of(&Graph::empty(0), 0);
    for limit in 0..=1024 {
        let answer = memory.least_crew(limit);
        assert_eq!((answer.number, answer.couriers), (0, 1));
    }
    assert_eq!(memory.least_crew(1025).number, 24);
    assert_eq!(steps(&memory, 0).0, 24);
    assert_eq!(steps(&memory, 65).0, 24);
}

#[test]
fn the_program_s_lines() {
    let list = b"N 5\n+ 0 1\n+ 1 2";
    let printed = |asked| String::from_utf8(program_output(list, asked)).expect("ASCII");
    assert_eq!(printed(Asked::Couriers(2)), "1 A 1 3\n2 A 4\n3 B 0 2\n");
    assert_eq!(
        printed(Asked::Within(3)),
        "CREW 2\n1 A 1 3\n2 A 4\n3 B 0 2\n"
    );
    assert_eq!(printed(Asked::Couriers(65)), "CREW 65 REFUSED 24\n");
    assert_eq!(printed(Asked::Within(1)), "WITHIN 1 REFUSED 25\n");
    assert_eq!(printed(Asked::Within(1025)), "WITHIN 1025 REFUSED 24\n");
    assert_eq!(program_output(b"N 0", Asked::Couriers(1)), b"");
    assert_eq!(program_output(b"N 0", Asked::Within(0)), b"CREW 1\n");
    assert_eq!(
        program_output(b"N 2\n+ 0 2", Asked::Within(0)),
        b"REFUSED 4 ROW 2\n"
    );
}
