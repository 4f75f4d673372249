//! Crews: each bank's step and the total with so many couriers, and the least crew, against the day that the
//! model serves; on plans of all sizes, at the ends of the spans, and through the wrapper.

use crate::call::Call;
use crate::pair::Pair;
use crate::plans::{bank_count, blocks, graph, memory_of};
use crate::{quick, rounds};
use independent::crew::served_day;
use independent::graph::Graph;
use independent::random::Random;
use wave_plan::{Bank, Plan, Refusal, Refused};

/// Cells for the steps of n banks, with some more, all of one content.
fn cells(random: &mut Random, n: usize) -> Vec<u16> {
    vec![random.draw() as u16; n + random.below(3)]
}

/// The call on library and model. The answer is the total.
fn total(random: &mut Random, pair: &mut Pair, couriers: usize) -> usize {
    let n = usize::from(pair.model.tally.banks);
    let steps = cells(random, n);
    let answer = pair.call(&Call::CrewSteps(couriers as u16, steps));
    assert_eq!(answer.number, 0);
    answer.results[0]
}

/// The least crew on library and model: it ends in time, and the one below it does not.
fn least(random: &mut Random, pair: &mut Pair, limit: usize) -> usize {
    let answer = pair.call(&Call::LeastCrew(limit as u16));
    let couriers = answer.results[0];
    if answer.number == 0 {
        assert!(total(random, pair, couriers) <= limit);
    } else {
        assert_eq!((answer.number, couriers), (25, 0));
    }
    let below = if answer.number == 0 { couriers } else { 65 } - 1;
    if below > 0 {
        assert!(total(random, pair, below) > limit);
    }
    couriers
}

#[test]
fn crews_on_plans_of_all_sizes() {
    let mut random = Random::new(231);
    for _ in 0..rounds(400) {
        let n = bank_count(&mut random, 1024);
        let graph = graph(&mut random, n);
        let memory = memory_of(&mut random, &graph);
        let mut pair = Pair::new(memory, random.draw());
        for couriers in [1, random.between(2, 8), random.between(2, 64), 64] {
            let steps = total(&mut random, &mut pair, couriers);
            assert_eq!(steps, served_day(&graph.waves(), couriers).len());
            assert!(least(&mut random, &mut pair, steps) <= couriers);
            if steps > 0 {
                let fewer = least(&mut random, &mut pair, steps - 1);
                assert!(fewer == 0 || fewer > couriers);
            }
        }
    }
}

/// All crews, and all limits in turn, of a plan of 100 banks in waves of equal and of other sizes.
#[test]
fn every_crew_and_every_limit() {
    let mut random = Random::new(232);
    let plans = [blocks(100, 5), Graph::empty(100), graph(&mut random, 100)];
    for graph in &plans {
        let memory = memory_of(&mut random, graph);
        let mut pair = Pair::new(memory, random.draw());
        let step = if quick() { 13 } else { 1 };
        for couriers in (1..=64).step_by(step) {
            total(&mut random, &mut pair, couriers);
        }
        for limit in (0..=101).step_by(step) {
            least(&mut random, &mut pair, limit);
        }
    }
}

/// 1,024 banks in one wave: 16 steps with all 64 couriers, 1,024 with one.
#[test]
fn the_most_banks_in_one_wave() {
    let mut random = Random::new(233);
    let memory = memory_of(&mut random, &Graph::empty(1024));
    let mut pair = Pair::new(memory, random.draw());
    assert_eq!(total(&mut random, &mut pair, 1), 1024);
    assert_eq!(total(&mut random, &mut pair, 63), 17);
    assert_eq!(total(&mut random, &mut pair, 64), 16);
    let limits = [
        (1024, 1),
        (1023, 2),
        (512, 2),
        (511, 3),
        (17, 61),
        (16, 64),
        (15, 0),
        (0, 0),
    ];
    for (limit, couriers) in limits {
        assert_eq!(least(&mut random, &mut pair, limit), couriers);
    }
}

#[test]
fn a_plan_without_banks() {
    let mut random = Random::new(234);
    let memory = memory_of(&mut random, &Graph::empty(0));
    let mut pair = Pair::new(memory, random.draw());
    for couriers in [1, 64] {
        assert_eq!(total(&mut random, &mut pair, couriers), 0);
    }
    for limit in [0, 1, 1023, 1024] {
        assert_eq!(least(&mut random, &mut pair, limit), 1);
    }
}

/// 24 after 3 and before 25, and 2 for cells that are short.
#[test]
fn out_of_span() {
    let mut random = Random::new(235);
    for n in [0, 1, 7, 30, 1024] {
        let graph = graph(&mut random, n);
        let mut memory = memory_of(&mut random, &graph);
        let mut pair = Pair::new(memory.clone(), random.draw());
        let far = [0, 65, 66, 128, 256 + 1, 1024, 65_535];
        let steps = cells(&mut random, n);
        for couriers in far {
            let call = Call::CrewSteps(couriers, steps.clone());
            assert_eq!(pair.call(&call).number, 24);
        }
        for limit in [1025, 1026, 2048, 65_535] {
            assert_eq!(pair.call(&Call::LeastCrew(limit)).number, 24);
        }
        if n == 0 {
            continue;
        }
        for couriers in [0, 1, 64, 65] {
            let call = Call::CrewSteps(couriers, vec![7; n - 1]);
            assert_eq!(pair.call(&call).number, 2);
        }
        memory.waves[n - 1] += 1;
        let mut pair = Pair::new(memory, random.draw());
        for couriers in [0, 1, 65] {
            let call = Call::CrewSteps(couriers, steps.clone());
            assert_eq!(pair.call(&call).number, 3);
        }
        for limit in [0, 1024, 1025] {
            assert_eq!(pair.call(&Call::LeastCrew(limit)).number, 3);
        }
    }
}

/// The wrapper that owns its memory: a ring of 9 banks, in waves of 4, 4 and 1.
#[test]
fn a_day_of_an_owned_plan() {
    let mut plan = Plan::open(9).expect("opened");
    for b in 0..9 {
        plan.add(Bank(b), Bank((b + 1) % 9)).expect("added");
    }
    let day = plan.crew_steps(3).expect("served");
    assert_eq!(day.steps, [1, 3, 1, 3, 1, 3, 2, 4, 5]);
    assert_eq!(day.total, 5);
    assert_eq!(plan.least_crew(5), Ok(2));
    assert_eq!(plan.least_crew(4), Ok(4));
    let refusal = |refused: Refused| refused.refusal;
    assert_eq!(plan.least_crew(2).map_err(refusal), Err(Refusal::NoCrew));
    let out_of_span = Err(Refusal::CrewSpan);
    assert_eq!(plan.least_crew(1025).map_err(refusal), out_of_span);
    let day = plan.crew_steps(65).map(|day| day.total);
    assert_eq!(day.map_err(refusal), out_of_span);
}
