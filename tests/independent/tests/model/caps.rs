//! Caps: setting one, edits at the waves that they need and one below, the order of the refusals, and
//! where a cap stays, is 24 or comes back.

use crate::journal::{add, record_refused, strike};
use crate::reach::{due_edit, edit};
use crate::shelf::{comes_back, keep, shelf_for, CLOSE, MORNING, NOON};
use crate::support::{any_graph, memory_of, opened, random_graph, table, waves_by_lookup};
use independent::calls::EditAnswer;
use independent::graph::Graph;
use independent::journal::{journal_of, Entry, Form};
use independent::journals::drawn_entries;
use independent::memory::Memory;
use independent::random::Random;

/// M8: six banks, two waves; M9's strike, of 2 and 5, leads to three.
const M8: [(u16, u16); 6] = [(0, 4), (0, 2), (2, 3), (1, 3), (1, 5), (2, 5)];

/// An edit that is refused with the number and changes nothing.
fn edit_refused(memory: &Memory, a: usize, b: usize, adds: bool, number: u16) {
    let mut after = memory.clone();
    let answer = edit(&mut after, a, b, adds);
    let wanted = EditAnswer {
        number,
        moved: 0,
        trail: 0,
    };
    assert_eq!(answer, wanted, "{a} {b} at cap {}", memory.tally.cap);
    assert_eq!(after, *memory);
}

/// A cap that is refused with the number and changes nothing.
fn cap_refused(memory: &Memory, cap: u16, number: u16) {
    let mut after = memory.clone();
    assert_eq!(after.set_cap(cap), number, "cap {cap}");
    assert_eq!(after, *memory);
}

/// A cap that is set: nothing else changes.
fn cap_set(memory: &mut Memory, cap: u16) {
    let old = memory.clone();
    assert_eq!(memory.set_cap(cap), 0, "cap {cap}");
    assert_eq!(memory.tally.cap, cap);
    assert_eq!(but_for_the_cap(memory, old.tally.cap), old);
}

/// The memory with another cap.
fn but_for_the_cap(memory: &Memory, cap: u16) -> Memory {
    let mut memory = memory.clone();
    memory.tally.cap = cap;
    memory
}

/// The waves that the rule needs, in the second way.
fn needed(graph: &Graph) -> u16 {
    let waves = waves_by_lookup(&table(graph), graph.ranks());
    waves.iter().max().map_or(0, |&wave| wave as u16 + 1)
}

#[test]
fn m9_under_a_cap() {
    let mut memory = opened(6, &M8);
    cap_set(&mut memory, 2);
    edit_refused(&memory, 2, 5, false, 20);
    edit_refused(&memory, 5, 2, false, 20);
    cap_set(&mut memory, 3);
    let answer = memory.strike(2, 5);
    assert_eq!((answer.number, answer.trail, answer.moved), (0, 5, 4));
    assert_eq!(memory.trail[..5], [0, 2, 3, 4, 5]);
    assert_eq!((memory.tally.waves, memory.tally.cap), (3, 3));
    assert_eq!(memory.add(2, 5).number, 0);
    assert_eq!((memory.tally.waves, memory.tally.cap), (2, 3));
}

/// M2 to M4: the third clash of three banks needs a third wave.
#[test]
fn m4_under_a_cap() {
    let mut memory = opened(3, &[(1, 2), (0, 1)]);
    cap_set(&mut memory, 2);
    edit_refused(&memory, 0, 2, true, 20);
    assert_eq!(memory.strike(0, 1).number, 0);
    assert_eq!(memory.add(0, 2).number, 0, "another clash, two waves");
    edit_refused(&memory, 1, 0, true, 20);
    cap_set(&mut memory, 3);
    assert_eq!(memory.add(1, 0).number, 0);
    assert_eq!((memory.tally.waves, memory.tally.cap), (3, 3));
    cap_refused(&memory, 2, 20);
}

/// At cap 1 no clash can be added; at cap 24 no edit is refused for its waves.
#[test]
fn the_least_and_the_largest_cap() {
    let mut memory = opened(25, &[]);
    cap_set(&mut memory, 1);
    for b in 1..25 {
        edit_refused(&memory, 0, b, true, 20);
    }
    cap_set(&mut memory, 23);
    for a in 0..23 {
        for b in 0..a {
            assert_eq!(memory.add(a, b).number, 0);
        }
    }
    for a in 0..22 {
        assert_eq!(memory.add(a, 23).number, 0, "bank 23 shares a wave");
    }
    edit_refused(&memory, 22, 23, true, 20);
    cap_set(&mut memory, 24);
    assert_eq!(memory.add(22, 23).number, 0);
    assert_eq!((memory.tally.waves, memory.tally.cap), (24, 24));
    edit_refused(&memory, 24, 23, true, 8);
    cap_refused(&memory, 23, 20);
}

/// How many edits were refused with 20, adds and strikes, and how many were accepted at just the cap.
#[derive(Debug, Default)]
struct Seen {
    adds: usize,
    strikes: usize,
    met: usize,
}

/// An edit under each cap from the plan's waves to one above those needed: it is refused with 20 exactly
/// if the rule needs more waves than the cap for the new clashes, and else leaves what it leaves at
/// cap 24.
fn under_each_cap(free: &Memory, a: usize, b: usize, adds: bool, seen: &mut Seen) {
    let graph = free.held_graph().expect("a plan");
    let new = if adds {
        graph.with(a, b)
    } else {
        graph.without(a, b)
    };
    let after = needed(&new);
    let mut wanted = free.clone();
    let answer = edit(&mut wanted, a, b, adds);
    assert_eq!((answer.number, wanted.tally.waves), (0, after));
    for cap in free.tally.waves..=24.min(after + 1) {
        let mut memory = free.clone();
        cap_set(&mut memory, cap);
        if cap < after {
            edit_refused(&memory, a, b, adds, 20);
            *if adds {
                &mut seen.adds
            } else {
                &mut seen.strikes
            } += 1;
        } else {
            assert_eq!(edit(&mut memory, a, b, adds), answer);
            assert_eq!(memory.tally.cap, cap);
            assert_eq!(but_for_the_cap(&memory, 24), wanted);
            seen.met += usize::from(cap == after);
        }
    }
}

/// All edits of small plans with few clashes, where some strikes need one wave more.
#[test]
fn edits_under_each_cap() {
    let mut random = Random::new(91);
    let mut seen = Seen::default();
    for _ in 0..600 {
        let n = random.between(6, 10);
        let tries = random.between(n, 3 * n);
        let graph = random_graph(&mut random, n, n, tries);
        let memory = memory_of(&graph, 2);
        for (a, b) in (0..graph.banks()).flat_map(|b| (0..b).map(move |a| (a, b))) {
            under_each_cap(&memory, a, b, !graph.clash(a, b), &mut seen);
        }
    }
    assert!(seen.adds > 100 && seen.strikes > 20, "{seen:?}");
    assert!(seen.met > 1000, "{seen:?}");
}

#[test]
fn edits_of_larger_plans_under_each_cap() {
    let mut random = Random::new(93);
    let mut seen = Seen::default();
    for _ in 0..300 {
        let graph = any_graph(&mut random, 60);
        let (a, b, adds) = due_edit(&mut random, &graph);
        under_each_cap(&memory_of(&graph, 0), a, b, adds, &mut seen);
    }
    assert!(seen.adds > 5 && seen.met > 200, "{seen:?}");
}

/// Every cap on plans of 0 to 24 waves.
#[test]
fn caps_to_set() {
    for n in 0..=24 {
        let complete = Graph::of(n, (0..n).flat_map(|b| (0..b).map(move |a| (a, b))));
        let mut memory = memory_of(&complete, 1);
        for cap in (0..=300).chain([1000, 6144, 32_769, 65_535]) {
            match usize::from(cap) {
                1..=24 if usize::from(cap) >= n => cap_set(&mut memory, cap),
                1..=24 => cap_refused(&memory, cap, 20),
                _ => cap_refused(&memory, cap, 19),
            }
        }
    }
}

#[test]
fn the_first_no_of_setting_a_cap_wins() {
    let plan = opened(3, &[(0, 1)]);
    let mut no_plan = plan.clone();
    no_plan.tally.cap = 25;
    let mut short = no_plan.clone();
    short.ranks.pop();
    let mut too_many = short.clone();
    too_many.tally.banks = 1025;
    for cap in [0, 1, 2, 24, 25, 65_535] {
        cap_refused(&too_many, cap, 1);
        cap_refused(&short, cap, 2);
        cap_refused(&no_plan, cap, 3);
    }
    cap_refused(&plan, 0, 19);
    cap_refused(&plan, 25, 19);
    cap_refused(&plan, 1, 20);
    let mut neither = plan;
    neither.trail.clear();
    neither.moved.clear();
    cap_set(&mut neither, 2);
}

/// Bank 0 has 23 clashes, and 1 clashes with 24: of 0 and 24 the clash would need a third wave.
#[test]
fn the_cap_is_asked_after_the_degrees() {
    let mut memory = opened(25, &[(1, 24)]);
    for q in 1..24 {
        assert_eq!(memory.add(0, q).number, 0);
    }
    cap_set(&mut memory, 2);
    edit_refused(&memory, 0, 24, true, 8);
    edit_refused(&memory, 24, 0, true, 8);
    edit_refused(&memory, 0, 1, true, 6);
    edit_refused(&memory, 0, 0, true, 5);
    edit_refused(&memory, 0, 25, true, 4);
    edit_refused(&memory, 2, 24, false, 7);
    edit_refused(&memory, 1, 2, true, 20);
    assert_eq!(memory.strike(0, 5).number, 0);
    edit_refused(&memory, 0, 24, true, 20);
}

/// A recorded edit is refused with 20 before 15, and after what is wrong in the journal.
#[test]
fn the_cap_is_asked_before_the_space() {
    let mut memory = opened(6, &M8);
    cap_set(&mut memory, 2);
    let journal = journal_of(Form::Numbered, 6, &M8.map(|(a, b)| add(a, b)));
    let length = journal.len();
    let field = Form::Numbered.entry_bytes();
    let spare = [&journal[..], &[0xAA; 13]].concat();
    for slice in [&journal[..], &spare[..length + field - 1], &spare] {
        record_refused(&memory, strike(2, 5), slice, length, 20);
        record_refused(&memory, add(0, 3), slice, length, 20);
        record_refused(&memory, add(0, 0), slice, length, 5);
        record_refused(&memory, strike(2, 5), slice, length - 1, 14);
    }
    record_refused(&memory, add(4, 5), &spare[..length + field - 1], length, 15);
    cap_set(&mut memory, 3);
    record_refused(&memory, strike(2, 5), &journal, length, 15);
    let mut slice = spare;
    let answer = memory.record(strike(2, 5), &mut slice, length);
    assert_eq!((answer.number, answer.length), (0, length + field));
    assert_eq!(memory.tally.cap, 3);
}

#[test]
fn opening_sets_the_cap_to_24() {
    for cap in [0, 1, 3, 25, 65_535] {
        let mut memory = Memory::filled(4, cap);
        assert_eq!(memory.open(4), 0);
        assert_eq!(memory.tally.cap, 24);
        cap_set(&mut memory, 5);
        assert_eq!(memory.open(2), 0);
        assert_eq!(memory.tally.cap, 24);
        cap_set(&mut memory, 1);
        assert_eq!(memory.open(5), 2);
        assert_eq!(memory.tally.cap, 1, "refused");
    }
}

/// A list or a replay that opens the plan leaves cap 24, and its edits go by no other cap.
#[test]
fn lists_and_replays_leave_cap_24() {
    let mut capped = opened(4, &[]);
    cap_set(&mut capped, 1);
    let all = [add(0, 1), add(1, 2), add(0, 2), add(2, 3)];
    let list = b"N 4\n+ 0 1\n+ 1 2\n+ 0 2\n+ 2 3";
    let late = [&all[..], &[add(3, 2)]].concat();
    let mut by_list = capped.clone();
    assert_eq!(by_list.read_list(list).number, 0);
    let mut by_late_list = capped.clone();
    let answer = by_late_list.read_list(&[&list[..], b"\n+ 3 2"].concat());
    assert_eq!((answer.number, answer.row), (6, 6));
    let mut by_replay = capped.clone();
    assert_eq!(
        by_replay
            .replay(&journal_of(Form::Numbered, 4, &all))
            .number,
        0
    );
    let mut by_late_replay = capped.clone();
    let answer = by_late_replay.replay(&journal_of(Form::Numbered, 4, &late));
    assert_eq!((answer.number, answer.field), (6, 6));
    for memory in [&by_list, &by_late_list, &by_replay, &by_late_replay] {
        assert_eq!((memory.tally.waves, memory.tally.cap), (3, 24));
        assert_eq!(*memory, by_list);
    }
    for list in [&b""[..], b"N 1025", b"N 5"] {
        let mut memory = capped.clone();
        assert_eq!(memory.read_list(list).row, 1);
        assert_eq!(memory, capped);
        assert_eq!(memory.replay(list).field, 1);
        assert_eq!(memory, capped);
    }
}

/// The cap of the state kept comes back, not that of the state left, and edits go by it.
#[test]
fn kept_caps_come_back() {
    let mut memory = opened(6, &M8);
    let mut shelf = shelf_for(6);
    cap_set(&mut memory, 2);
    keep(&memory, &mut shelf, MORNING);
    cap_set(&mut memory, 24);
    keep(&memory, &mut shelf, NOON);
    cap_set(&mut memory, 3);
    assert_eq!(memory.strike(2, 5).number, 0);
    keep(&memory, &mut shelf, CLOSE);
    comes_back(&mut memory, &shelf, MORNING, &[0, 2, 3, 4]);
    assert_eq!((memory.tally.waves, memory.tally.cap), (2, 2));
    edit_refused(&memory, 2, 5, false, 20);
    comes_back(&mut memory, &shelf, CLOSE, &[0, 2, 3, 4]);
    assert_eq!((memory.tally.waves, memory.tally.cap), (3, 3));
    comes_back(&mut memory, &shelf, NOON, &[0, 2, 3, 4]);
    assert_eq!((memory.tally.waves, memory.tally.cap), (2, 24));
    assert_eq!(memory.strike(2, 5).number, 0);
}

/// Edits recorded under caps that come and go: after each one, accepted or refused, the journal replays
/// to the present plan in all but the cap.
#[test]
fn journals_under_caps_replay_to_the_plan() {
    let mut random = Random::new(92);
    let (mut accepted, mut refused) = (0, 0);
    for _ in 0..30 {
        let n = random.between(4, 12);
        let mut memory = memory_of(&Graph::empty(n), 0);
        let mut slice = vec![0; 700];
        let mut length = memory.start_journal(&mut slice).length;
        for entry in drawn_entries(&mut random, n, 8, 60) {
            if random.one_in(4) {
                let cap = random.between(usize::from(memory.tally.waves), 5);
                cap_set(&mut memory, cap as u16);
            }
            let (bytes, old) = (slice.clone(), memory.clone());
            match memory.record(entry, &mut slice, length) {
                answer if answer.number == 0 => {
                    length = answer.length;
                    accepted += 1;
                }
                answer => {
                    refused += usize::from(answer.number == 20);
                    assert_eq!((&slice, &memory), (&bytes, &old), "{entry:?}");
                }
            }
            let mut replayed = Memory::filled(n, 3);
            let answer = replayed.replay(&slice[..length]);
            assert_eq!((answer.number, answer.left), (0, 0));
            assert_eq!(replayed.tally.cap, 24);
            assert_eq!(replayed.held_graph(), memory.held_graph());
        }
    }
    assert!(accepted > 200 && refused > 50, "{accepted} {refused}");
}

/// A cap is no part of a journal: a new one has the same bytes under each.
#[test]
fn a_new_journal_has_no_cap() {
    let mut memory = opened(6, &M8);
    let entries: Vec<Entry> = {
        let mut pairs = M8.to_vec();
        pairs.sort_unstable();
        pairs.into_iter().map(|(a, b)| add(a, b)).collect()
    };
    for cap in 2..=24 {
        cap_set(&mut memory, cap);
        let mut slice = vec![0; 100];
        let length = memory.start_journal(&mut slice).length;
        assert_eq!(slice[..length], journal_of(Form::Numbered, 6, &entries));
    }
}
