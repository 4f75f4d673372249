//! Demand 3 on random edits, bank by bank, in a second way: from tables of clashes, places in the
//! order and waves by lookup.

use crate::support::{any_graph, memory_of, places, random_graph, table, waves_by_lookup};
use independent::calls::EditAnswer;
use independent::graph::{Bank, Graph};
use independent::memory::Memory;
use independent::plan::Plan;
use independent::random::Random;
use std::collections::BTreeSet;

/// What a graph gives, in the second way.
struct Known {
    clash: Vec<Vec<bool>>,
    place: Vec<usize>,
    wave: Vec<usize>,
}

fn known(graph: &Graph) -> Known {
    let clash = table(graph);
    Known {
        place: places(&clash, graph.ranks()),
        wave: waves_by_lookup(&clash, graph.ranks()),
        clash,
    }
}

/// An edit that no refusal is due to: two banks, and whether it adds.
pub fn due_edit(random: &mut Random, graph: &Graph) -> (Bank, Bank, bool) {
    loop {
        let (a, b) = (random.below(graph.banks()), random.below(graph.banks()));
        let room = graph.degree(a) < 23 && graph.degree(b) < 23;
        if a != b && (graph.clash(a, b) || room) {
            return (a, b, !graph.clash(a, b));
        }
    }
}

pub fn edit(memory: &mut Memory, a: Bank, b: Bank, add: bool) -> EditAnswer {
    if add {
        memory.add(a as u16, b as u16)
    } else {
        memory.strike(a as u16, b as u16)
    }
}

/// The banks whose rule wave changed.
fn movers(old: &Known, new: &Known) -> BTreeSet<Bank> {
    let moved = |&x: &Bank| old.wave[x] != new.wave[x];
    (0..new.wave.len()).filter(moved).collect()
}

/// The banks that demand 3 says are taken up.
fn taken_up(old: &Known, new: &Known, a: Bank, b: Bank) -> BTreeSet<Bank> {
    let banks = 0..new.wave.len();
    let mut taken_up = BTreeSet::from([a, b]);
    for c in [a, b] {
        let before = |x: Bank| old.place[x] < old.place[c];
        let after = |x: Bank| new.place[x] < new.place[c];
        let turned = |&x: &Bank| new.clash[c][x] && before(x) != after(x);
        taken_up.extend(banks.clone().filter(turned));
    }
    for q in movers(old, new) {
        let later = |&x: &Bank| new.clash[q][x] && new.place[q] < new.place[x];
        taken_up.extend(banks.clone().filter(later));
    }
    taken_up
}

/// The cells name exactly the wanted banks, each once, in the new order.
fn names_exactly(cells: &[u16], wanted: &BTreeSet<Bank>, place: &[usize]) {
    let banks: Vec<Bank> = cells.iter().map(|&b| usize::from(b)).collect();
    assert_eq!(banks.len(), wanted.len());
    for b in wanted {
        assert_eq!(banks.iter().filter(|&x| x == b).count(), 1, "bank {b}");
    }
    for pair in banks.windows(2) {
        assert!(place[pair[0]] < place[pair[1]], "new order");
    }
}

/// The plan cells of bank x: row, degree, wave, counts, rank.
fn cells_of(memory: &Memory, x: Bank) -> (&[u16], u16, u16, &[u16], u16) {
    let row = &memory.neighbours[23 * x..23 * x + 23];
    let counts = &memory.counts[24 * x..24 * x + 24];
    (
        row,
        memory.degrees[x],
        memory.waves[x],
        counts,
        memory.ranks[x],
    )
}

/// The size of the set made of a, b, the moved banks and all neighbours of these after the edit.
fn bound(new: &Known, a: Bank, b: Bank, moved: &BTreeSet<Bank>) -> usize {
    let mut core = moved.clone();
    core.extend([a, b]);
    let near = |x: &Bank| core.iter().any(|&q| new.clash[q][*x]);
    let banks = 0..new.wave.len();
    banks.filter(|x| core.contains(x) || near(x)).count()
}

/// One edit from memory that holds the plan of the old graph. Checks the whole of demand 3.
fn check_edit(memory: &mut Memory, old_graph: &Graph, a: Bank, b: Bank, add: bool) -> Graph {
    let new_graph = if add {
        old_graph.with(a, b)
    } else {
        old_graph.without(a, b)
    };
    let (old, new) = (known(old_graph), known(&new_graph));
    let (moved, trail) = (movers(&old, &new), taken_up(&old, &new, a, b));
    let before = memory.clone();
    let answer = edit(memory, a, b, add);
    assert_eq!(answer.number, 0);

    names_exactly(&memory.trail[..answer.trail], &trail, &new.place);
    names_exactly(&memory.moved[..answer.moved], &moved, &new.place);
    assert_eq!(memory.trail[answer.trail..], before.trail[answer.trail..]);
    assert_eq!(memory.moved[answer.moved..], before.moved[answer.moved..]);
    assert_eq!(memory.ranks, before.ranks, "an edit changes no rank");
    assert!(moved.is_subset(&trail));
    assert!(answer.trail <= bound(&new, a, b, &moved));

    for x in (0..new.wave.len()).filter(|x| !trail.contains(x)) {
        assert_eq!(cells_of(memory, x), cells_of(&before, x), "off the trail");
    }
    for (x, &wave) in new.wave.iter().enumerate() {
        assert_eq!(usize::from(memory.waves[x]), wave);
    }
    assert_eq!(memory.held_graph().as_ref(), Some(&new_graph));
    new_graph
}

#[test]
fn single_edits_meet_demand_3() {
    let mut random = Random::new(11);
    for _ in 0..1500 {
        let graph = any_graph(&mut random, 40);
        let mut memory = memory_of(&graph, 0);
        memory.trail.fill_with(|| random.draw() as u16);
        memory.moved.fill_with(|| random.draw() as u16);
        let (a, b, add) = due_edit(&mut random, &graph);
        check_edit(&mut memory, &graph, a, b, add);
    }
}

#[test]
fn runs_of_edits_meet_demand_3() {
    let mut random = Random::new(12);
    for _ in 0..20 {
        let mut graph = any_graph(&mut random, 30);
        let mut memory = memory_of(&graph, 2);
        for _ in 0..100 {
            let (a, b, add) = due_edit(&mut random, &graph);
            graph = check_edit(&mut memory, &graph, a, b, add);
        }
    }
}

#[test]
fn edits_of_the_largest_plan_meet_demand_3() {
    let mut random = Random::new(13);
    let mut graph = random_graph(&mut random, 1024, 1024, 16_000);
    let mut memory = memory_of(&graph, 0);
    for _ in 0..4 {
        let (a, b, add) = due_edit(&mut random, &graph);
        graph = check_edit(&mut memory, &graph, a, b, add);
    }
}

#[test]
fn an_edit_and_its_inverse_restore_the_plan() {
    let mut random = Random::new(14);
    for _ in 0..300 {
        let graph = any_graph(&mut random, 60);
        let mut memory = memory_of(&graph, 3);
        let (a, b, add) = due_edit(&mut random, &graph);
        let before = memory.clone();
        let there = edit(&mut memory, a, b, add);
        assert_ne!(memory.degrees, before.degrees);
        let back = edit(&mut memory, a, b, !add);
        assert_eq!((there.number, back.number), (0, 0));
        assert_eq!(there.moved, back.moved, "the same banks move back");
        memory.trail = before.trail.clone();
        memory.moved = before.moved.clone();
        assert_eq!(memory, before);
    }
}

#[test]
fn the_way_to_a_graph_leaves_no_mark() {
    let mut random = Random::new(15);
    for _ in 0..40 {
        let goal = any_graph(&mut random, 25);
        let start = any_graph_of(&mut random, goal.banks());
        let start = start.with_ranks(goal.ranks().to_vec());
        let mut memory = memory_of(&start, 0);
        for a in 0..goal.banks() {
            for b in 0..a {
                let there = memory.clashes_of(a as u16).contains(&(b as u16));
                if there && !goal.clash(a, b) {
                    assert_eq!(edit(&mut memory, a, b, false).number, 0);
                }
            }
        }
        for a in 0..goal.banks() {
            for b in 0..a {
                let there = memory.clashes_of(a as u16).contains(&(b as u16));
                if !there && goal.clash(a, b) {
                    assert_eq!(edit(&mut memory, a, b, true).number, 0);
                }
            }
        }
        let plan = Plan::of(&goal);
        assert_eq!(memory.neighbours, plan.neighbours);
        assert_eq!(memory.degrees, plan.degrees);
        assert_eq!(memory.waves, plan.waves);
        assert_eq!(memory.counts, plan.counts);
        assert_eq!(memory.ranks, plan.ranks);
        assert_eq!(memory.tally, plan.tally);
    }
}

fn any_graph_of(random: &mut Random, n: usize) -> Graph {
    let tries = random.below(12 * n);
    random_graph(random, n, 20, tries)
}

/// The tests above would be weak if edits seldom moved banks that they do not name.
#[test]
fn random_edits_reach_far() {
    let mut random = Random::new(16);
    let (mut unnamed_moved, mut turned_only) = (0, 0);
    for _ in 0..500 {
        let graph = any_graph(&mut random, 40);
        let mut memory = memory_of(&graph, 0);
        let (a, b, add) = due_edit(&mut random, &graph);
        let answer = edit(&mut memory, a, b, add);
        let unnamed = |x: &u16| usize::from(*x) != a && usize::from(*x) != b;
        unnamed_moved += usize::from(memory.moved[..answer.moved].iter().any(unnamed));
        let on_trail = memory.trail[..answer.trail].iter().any(unnamed);
        turned_only += usize::from(on_trail && answer.moved == 0);
    }
    assert!(unnamed_moved > 50, "{unnamed_moved}");
    assert!(turned_only > 10, "{turned_only}");
}
