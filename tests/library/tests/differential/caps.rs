//! Caps: which can be set, edits at the waves that they need and one below, and the order of the
//! refusals. What a refused edit was lent is as it was, trail, moved, journal and shelf included.

use crate::call::Call;
use crate::edits::{good_add, good_strike};
use crate::pair::Pair;
use crate::plans::{any_memory, bank_count, blocks, graph, shelf_of, slices, PLAN_SLICES};
use crate::{quick, rounds};
use independent::graph::Graph;
use independent::journal::{journal_of, started, Entry, Form};
use independent::memory::Memory;
use independent::random::Random;
use independent::reach::Edit;

/// Memory that holds the plan of a graph, with cap 24.
fn uncapped(random: &mut Random, graph: &Graph) -> Memory {
    let mut memory = any_memory(random, graph.banks());
    memory.store_plan(graph);
    memory
}

/// Every cap on plans of 0 to 24 waves, and on random ones.
#[test]
fn caps_to_set() {
    let mut random = Random::new(161);
    let step = if quick() { 7 } else { 1 };
    let complete = (0..=24).step_by(step).map(|n| blocks(n, n.max(1)));
    let mut graphs: Vec<Graph> = complete.collect();
    for _ in 0..rounds(60) {
        let n = bank_count(&mut random, 1024);
        graphs.push(graph(&mut random, n));
    }
    for graph in graphs {
        let memory = uncapped(&mut random, &graph);
        let waves = memory.tally.waves;
        let mut pair = Pair::new(memory, random.draw());
        for cap in (0..=40).chain([255, 256, 257, 280, 32_768, 65_535]) {
            let wanted = match cap {
                1..=24 if cap < waves => 20,
                1..=24 => 0,
                _ => 19,
            };
            assert_eq!(pair.call(&Call::SetCap(cap)).number, wanted);
            assert!(wanted != 0 || pair.model.tally.cap == cap);
        }
    }
}

/// How many edits were refused with 20, adds and strikes, and how many were accepted at just the cap.
#[derive(Debug, Default)]
struct Seen {
    adds: usize,
    strikes: usize,
    met: usize,
}

/// An edit from memory of cap 24, and then under each cap near the waves that it needs: refused with 20
/// below them, with a journal that has space and one that has not; else as at cap 24 but for the cap.
fn under_each_cap(random: &mut Random, memory: &Memory, call: &Call, seen: &mut Seen) {
    let mut wanted = Pair::new(memory.clone(), random.draw());
    let answer = wanted.call(call);
    assert_eq!(answer.number, 0, "{call}");
    let mut wanted = wanted.model;
    let needed = wanted.tally.waves;
    let graph = memory.held_graph().expect("a plan");
    let least = memory.tally.waves.max(1);
    for cap in least.max(needed.saturating_sub(1))..=24.min(needed + 1) {
        let shelf = shelf_of(random, graph.banks(), [None, Some(&graph), None]);
        let mut pair = Pair::with_shelf(memory.clone(), shelf, random.draw());
        assert_eq!(pair.call(&Call::SetCap(cap)).number, 0);
        if cap < needed {
            assert_eq!(pair.call(call).number, 20, "{call} at cap {cap}");
            recorded_refused(random, &mut pair, &graph, call);
            match call {
                Call::Add(..) => seen.adds += 1,
                _ => seen.strikes += 1,
            }
        } else {
            let capped = pair.call(call);
            assert_eq!((capped.number, &capped.results), (0, &answer.results));
            wanted.tally.cap = cap;
            assert!(pair.model == wanted, "{call} at cap {cap}");
            seen.met += usize::from(cap == needed);
        }
    }
}

/// The same edit recorded in a journal of the plan: 20, with space for its field or without.
fn recorded_refused(random: &mut Random, pair: &mut Pair, graph: &Graph, call: &Call) {
    let journal = started(graph);
    let entry = match *call {
        Call::Add(a, b) => entry(Edit::Add, a, b),
        Call::Strike(a, b) => entry(Edit::Strike, a, b),
        _ => panic!("{call} is no edit"),
    };
    for spare in [0, 6, 7] {
        let slice = [&journal[..], &vec![random.byte(); spare]].concat();
        let answer = pair.call(&Call::Record(entry, slice, journal.len()));
        let wanted = if journal.len() > 60_000 { 9 } else { 20 };
        assert_eq!(answer.number, wanted, "{call} recorded");
    }
}

fn entry(edit: Edit, a: u16, b: u16) -> Entry {
    Entry { edit, a, b }
}

/// Edits of random plans of all sizes.
#[test]
fn edits_near_the_cap() {
    let mut random = Random::new(162);
    let mut seen = Seen::default();
    for round in 0..rounds(400) {
        let most = if round % 20 == 0 { 1024 } else { 60 };
        let n = bank_count(&mut random, most).max(2);
        let graph = graph(&mut random, n);
        let memory = uncapped(&mut random, &graph);
        let pair = Pair::new(memory.clone(), random.draw());
        let calls = [
            good_add(&mut random, &pair),
            good_strike(&mut random, &pair),
        ];
        for call in calls.iter().flatten() {
            under_each_cap(&mut random, &memory, call, &mut seen);
        }
    }
    assert!(quick() || (seen.adds > 10 && seen.met > 400), "{seen:?}");
}

/// A graph of n banks and about as many clashes: here some strikes need one wave more.
fn sparse(random: &mut Random, n: usize) -> Graph {
    let mut pairs = Vec::new();
    for _ in 0..random.between(n, 2 * n) {
        let (a, b) = (random.below(n), random.below(n));
        if a != b {
            pairs.push((a, b));
        }
    }
    Graph::of(n, pairs)
}

/// All edits of small plans with few clashes.
#[test]
fn all_edits_near_the_cap() {
    let mut random = Random::new(163);
    let mut seen = Seen::default();
    for _ in 0..rounds(200) {
        let n = random.between(6, 10);
        let graph = sparse(&mut random, n);
        let memory = uncapped(&mut random, &graph);
        for (a, b) in (0..n).flat_map(|b| (0..b).map(move |a| (a, b))) {
            let call = match graph.clash(a, b) {
                true => Call::Strike(a as u16, b as u16),
                false => Call::Add(b as u16, a as u16),
            };
            under_each_cap(&mut random, &memory, &call, &mut seen);
        }
    }
    let varied = seen.adds > 100 && seen.strikes > 10 && seen.met > 1000;
    assert!(quick() || varied, "{seen:?}");
}

/// M9's strike at cap 2.
#[test]
fn m9_at_cap_2() {
    let mut random = Random::new(164);
    let mut seen = Seen::default();
    let m8 = Graph::of(6, [(0, 4), (0, 2), (2, 3), (1, 3), (1, 5), (2, 5)]);
    let memory = uncapped(&mut random, &m8);
    for (a, b) in [(2, 5), (5, 2)] {
        under_each_cap(&mut random, &memory, &Call::Strike(a, b), &mut seen);
    }
    assert_eq!((seen.strikes, seen.met), (2, 2));
}

/// Bank 0 has 23 clashes and its clash with 24 would need a third wave: 8 comes before 20, and 20
/// before 15. 14 comes before all of them.
#[test]
fn the_order_of_the_refusals() {
    let mut random = Random::new(165);
    let star = Graph::of(26, (1..24).map(|q| (0, q)).chain([(1, 24)]));
    let mut memory = uncapped(&mut random, &star);
    memory.tally.cap = 2;
    let journal = journal_of::<Entry>(Form::Numbered, 26, &[]);
    for (add, number) in [((0, 24), 8), ((24, 0), 8), ((1, 2), 20), ((24, 25), 0)] {
        let (a, b) = add;
        let mut pair = Pair::new(memory.clone(), random.draw());
        for (spare, last) in [(0, 15), (10, 15), (11, 0)] {
            let slice = [&journal[..], &vec![b'#'; spare]].concat();
            let wanted = if number == 0 { last } else { number };
            let call = |length| Call::Record(entry(Edit::Add, a, b), slice.clone(), length);
            if spare > 0 {
                assert_eq!(pair.call(&call(6)).number, 14);
            }
            assert_eq!(pair.call(&call(5)).number, wanted, "{a} {b}, {spare}");
        }
        let mut pair = Pair::new(memory.clone(), random.draw());
        assert_eq!(pair.call(&Call::Add(a, b)).number, number);
    }
}

/// All sets of faults of a cap: too many banks, a slice that is a cell short, no plan, out of span,
/// below the waves. The first no wins. Trail and moved are not lent.
#[test]
fn the_first_no_of_setting_a_cap() {
    let mut random = Random::new(166);
    for faults in 0..32 {
        let fault = |i: usize| faults >> i & 1 == 1;
        let mut memory = Memory::filled(4, 9);
        memory.store_plan(&Graph::of(4, [(0, 1), (1, 2)]));
        memory.trail.clear();
        memory.moved.clear();
        if fault(2) {
            memory.tally.cap = *random.pick(&[0, 1, 25]);
        }
        if fault(1) {
            slices(&mut memory)[random.below(PLAN_SLICES)].pop();
        }
        if fault(0) {
            memory.tally.banks = 1025;
        }
        let cap = match (fault(3), fault(4)) {
            (true, true) => 0,
            (true, false) => 25,
            (false, true) => 1,
            (false, false) => 2,
        };
        let numbers = [(0, 1), (1, 2), (2, 3), (3, 19), (4, 20)];
        let first = numbers.into_iter().find(|&(i, _)| fault(i));
        let wanted = first.map_or(0, |(_, number)| number);
        let mut pair = Pair::new(memory, random.draw());
        assert_eq!(pair.call(&Call::SetCap(cap)).number, wanted, "{faults}");
    }
}

/// Opening, a list and a replay leave cap 24, and so does one that is refused after its plan is open;
/// their edits go by no cap.
#[test]
fn cap_24_after_opening_lists_and_replays() {
    let mut random = Random::new(167);
    let adds = [(0, 1), (1, 2), (0, 2), (2, 0)].map(|(a, b)| entry(Edit::Add, a, b));
    let list = b"N 4\n+ 0 1\n+ 1 2\n+ 0 2\n+ 2 0".to_vec();
    let calls = [
        (Call::Open(4), 0),
        (Call::ReadList(list[..list.len() - 6].to_vec()), 0),
        (Call::ReadList(list), 6),
        (Call::Replay(journal_of(Form::Numbered, 4, &adds[..3])), 0),
        (Call::Replay(journal_of(Form::Numbered, 4, &adds)), 6),
    ];
    for cap in 1..=24 {
        for (call, number) in &calls {
            let mut pair = Pair::new(uncapped(&mut random, &Graph::empty(4)), random.draw());
            assert_eq!(pair.call(&Call::SetCap(cap)).number, 0);
            assert_eq!(pair.call(call).number, *number);
            assert_eq!(pair.model.tally.cap, 24);
        }
        let mut pair = Pair::new(uncapped(&mut random, &Graph::empty(4)), random.draw());
        assert_eq!(pair.call(&Call::SetCap(cap)).number, 0);
        for call in [Call::Open(1025), Call::ReadList(b"N".to_vec())] {
            assert_ne!(pair.call(&call).number, 0);
            assert_eq!(pair.model.tally.cap, cap, "refused");
        }
    }
}
