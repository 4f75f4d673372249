//! Shelves: sequences of keepings and returns, with edits, caps, lists and replays between; journals
//! after a return; opening; the names.

use crate::call::Call;
use crate::edits::{good_add, good_strike, some_cap};
use crate::journals::replays_to;
use crate::pair::Pair;
use crate::plans::{any_memory, bank_count, graph, memory_of, shelf_of, store};
use crate::{quick, rounds};
use independent::graph::Graph;
use independent::journal::{journal_of, Entry, FORMS};
use independent::journals::{drawn_fields, same_list};
use independent::plan::MAX_BANKS;
use independent::random::Random;
use independent::reach::Edit;
use independent::shelf::{place_cells, shelf_cells, NAMES};

/// What came up in a number of sequences.
#[derive(Debug, Default)]
struct Seen {
    /// How many keepings and returns got each number.
    keeps: [usize; 18],
    returns: [usize; 18],
    /// How many keepings replaced a kept plan.
    replaced: usize,
    /// How many returns moved some banks, and the most that one moved.
    moving: usize,
    most_moved: usize,
    /// How many lists and replays were accepted.
    passes: usize,
    /// How many edits were refused for the cap, and how many returns changed it.
    capped: usize,
    caps_back: usize,
}

/// A plan that was kept, and its cap.
type Kept = Option<(Graph, u16)>;

/// A plan, a shelf and room for so many banks.
struct Day {
    pair: Pair,
    room: usize,
    /// What is kept in each place, if the shelf is open for the present bank count.
    kept: Option<[Kept; 3]>,
}

impl Day {
    /// A plan of n banks, in memory and beside a shelf of any content with room for some more.
    fn begin(random: &mut Random, n: usize) -> Day {
        let room = (n + random.below(3)).min(MAX_BANKS);
        let shelf = (0..shelf_cells(room) + random.below(20)).map(|_| random.draw() as u16);
        let shelf = shelf.collect();
        let mut memory = any_memory(random, room);
        let graph = graph(random, n);
        store(random, &mut memory, &graph);
        Day {
            pair: Pair::with_shelf(memory, shelf, random.draw()),
            room,
            kept: None,
        }
    }

    /// Opens the shelf for the present bank count.
    fn open_shelf(&mut self) {
        let n = self.pair.model.tally.banks;
        assert_eq!(self.pair.call(&Call::OpenShelf(n)).number, 0);
        self.kept = Some([None, None, None]);
    }

    fn keep(&mut self, place: usize, seen: &mut Seen) {
        let answer = self.pair.call(&Call::Keep(NAMES[place].to_vec()));
        seen.keeps[usize::from(answer.number)] += 1;
        if let Some(kept) = &mut self.kept {
            assert_eq!(answer.number, 0);
            seen.replaced += usize::from(kept[place].is_some());
            kept[place] = present(&self.pair);
        }
    }

    fn come_back(&mut self, place: usize, seen: &mut Seen) {
        let left = self.pair.model.tally.cap;
        let answer = self.pair.call(&Call::ComeBack(NAMES[place].to_vec()));
        seen.caps_back += usize::from(left != self.pair.model.tally.cap);
        seen.returns[usize::from(answer.number)] += 1;
        seen.moving += usize::from(answer.results[0] > 0);
        seen.most_moved = seen.most_moved.max(answer.results[0]);
        match self.kept.as_ref().map(|kept| &kept[place]) {
            Some(None) => assert_eq!(answer.number, 17),
            Some(state) => assert!(answer.number == 0 && present(&self.pair) == *state),
            None => {}
        }
    }

    /// A call with a name that is not known.
    fn unknown_name(&mut self, random: &mut Random, seen: &mut Seen) {
        let mut name = random.pick(&NAMES).to_vec();
        name[random.below(8)] ^= 1 << random.below(8);
        let keep = self.pair.call(&Call::Keep(name.clone()));
        let back = self.pair.call(&Call::ComeBack(name));
        seen.keeps[usize::from(keep.number)] += 1;
        seen.returns[usize::from(back.number)] += 1;
        if self.kept.is_some() {
            assert_eq!((keep.number, back.number), (16, 16));
        }
    }

    /// A list or a replay, as a rule of the same bank count; if not, the shelf is one for another.
    fn pass(&mut self, random: &mut Random, seen: &mut Seen) {
        let old = usize::from(self.pair.model.tally.banks);
        let n = match random.below(4) {
            0 => random.below(self.room + 1),
            _ => old,
        };
        let fields = drawn_fields(random, n, 12, 40);
        let call = match random.below(2) {
            0 => Call::ReadList(same_list(n as u16, &fields)),
            _ => Call::Replay(journal_of(*random.pick(&FORMS), n as u16, &fields)),
        };
        assert_eq!(self.pair.call(&call).number, 0);
        seen.passes += 1;
        if n != old {
            self.kept = None;
        }
    }

    fn edit(&mut self, random: &mut Random, seen: &mut Seen) {
        let call = match random.below(3) {
            0 => good_strike(random, &self.pair),
            _ => good_add(random, &self.pair),
        };
        if let Some(call) = call {
            let number = self.pair.call(&call).number;
            assert!(number == 0 || number == 20, "{number}");
            seen.capped += usize::from(number == 20);
        }
    }

    fn step(&mut self, random: &mut Random, seen: &mut Seen) {
        let place = random.below(3);
        match random.below(22) {
            0..=8 => self.edit(random, seen),
            9..=12 => self.keep(place, seen),
            13..=16 => self.come_back(place, seen),
            17 => self.unknown_name(random, seen),
            18 => self.pass(random, seen),
            19 | 20 => {
                self.pair.call(&some_cap(random, &self.pair));
            }
            _ if self.kept.is_none() || random.one_in(4) => self.open_shelf(),
            _ => self.edit(random, seen),
        }
    }
}

/// The present plan and its cap.
fn present(pair: &Pair) -> Kept {
    let graph = pair.model.held_graph()?;
    Some((graph, pair.model.tally.cap))
}

/// So many sequences of 60 steps on at least and at most so many banks; a shelf is open as a rule.
fn sequences(rounds: usize, seed: u64, least: usize, most: usize) -> Seen {
    let mut random = Random::new(seed);
    let mut seen = Seen::default();
    for _ in 0..rounds {
        let n = bank_count(&mut random, most).max(least);
        let mut day = Day::begin(&mut random, n);
        if !random.one_in(10) {
            day.open_shelf();
        }
        for _ in 0..60 {
            day.step(&mut random, &mut seen);
        }
    }
    seen
}

/// Keepings and returns got each of their numbers, and did what there is to do.
fn varied(seen: &Seen, most_moved: usize) {
    let all = |numbers: &[usize], of: &[usize; 18]| numbers.iter().all(|&number| of[number] > 4);
    assert!(all(&[0, 3, 16], &seen.keeps), "{seen:?}");
    assert!(all(&[0, 3, 16, 17], &seen.returns), "{seen:?}");
    assert!(
        seen.replaced > 20 && seen.moving > 20 && seen.passes > 10,
        "{seen:?}"
    );
    assert!(seen.most_moved >= most_moved, "{seen:?}");
    assert!(seen.capped > 0 && seen.caps_back > 20, "{seen:?}");
}

#[test]
fn sequences_with_a_shelf() {
    let seen = sequences(rounds(300), 121, 0, 60);
    if !quick() {
        varied(&seen, 20);
    }
}

#[test]
fn sequences_with_a_shelf_of_many_banks() {
    let seen = sequences(rounds(24), 122, 300, 1024);
    if !quick() {
        varied(&seen, 100);
    }
}

/// After a return the journal of the day replays to the plan that was left, and a new one to the plan
/// that came back.
#[test]
fn journals_after_a_return() {
    let mut random = Random::new(125);
    let mut seen = Seen::default();
    for _ in 0..rounds(80) {
        let n = random.between(2, 30);
        let mut day = Day::begin(&mut random, n);
        day.open_shelf();
        day.keep(0, &mut seen);
        let mut journal = day.pair.call(&Call::StartJournal(vec![0; 8000]));
        let mut length = journal.results[0];
        for _ in 0..6 {
            if let Some(Call::Add(a, b)) = good_add(&mut random, &day.pair) {
                let edit = Edit::Add;
                let call = Call::Record(Entry { edit, a, b }, journal.output, length);
                journal = day.pair.call(&call);
                if journal.number == 0 {
                    length = journal.results[2];
                }
            }
        }
        let left = day.pair.model.held_graph();
        day.come_back(0, &mut seen);
        replays_to(&mut random, &journal.output[..length], &left);
        let anew = day.pair.call(&Call::StartJournal(vec![0; 8000]));
        let present = day.pair.model.held_graph();
        replays_to(&mut random, &anew.output[..anew.results[0]], &present);
    }
    assert!(quick() || seen.moving > 20, "{seen:?}");
}

/// Bank counts around 1,024, and slices that just fit, are a cell short or have cells to spare.
#[test]
fn opening_a_shelf() {
    let mut random = Random::new(123);
    let empty = memory_of(&mut random, &Graph::empty(0));
    let mut opened = |n: usize, cells: usize, number: u16| {
        let content = *random.pick(&[1, 2, 65_535]);
        let mut pair = Pair::with_shelf(empty.clone(), vec![content; cells], random.draw());
        assert_eq!(pair.call(&Call::OpenShelf(n as u16)).number, number);
        let places = [0, place_cells(n), 2 * place_cells(n)];
        for (i, &cell) in pair.shelf.iter().enumerate() {
            let cleared = number == 0 && places.contains(&i);
            assert_eq!(cell, if cleared { 0 } else { content });
        }
    };
    let step = if quick() { 100 } else { 1 };
    for n in (0..=1024).step_by(step).chain([1023, 1024]) {
        let cells = shelf_cells(n);
        opened(n, cells, 0);
        opened(n, cells + 1, 0);
        opened(n, cells - 1, 2);
        opened(n, 0, 2);
    }
    for n in [1025, 1026, 2048, 65_535] {
        opened(n, shelf_cells(1024) + 100, 1);
        opened(n, 0, 1);
    }
}

/// Each byte of each name changed to each other one; names of other lengths, of which 65,544 is 8 in
/// 16 bits.
#[test]
fn names_of_kept_plans() {
    let mut random = Random::new(124);
    let graph = graph(&mut random, 2);
    let memory = memory_of(&mut random, &graph);
    let shelf = shelf_of(&mut random, 2, [Some(&graph), None, Some(&graph)]);
    let mut number = |call: &dyn Fn(Vec<u8>) -> Call, name: &[u8]| -> u16 {
        let mut pair = Pair::with_shelf(memory.clone(), shelf.clone(), random.draw());
        pair.call(&call(name.to_vec())).number
    };
    let mut unknown = |name: &[u8]| {
        assert_eq!(number(&Call::Keep, name), 16, "{}", name.escape_ascii());
        assert_eq!(number(&Call::ComeBack, name), 16, "{}", name.escape_ascii());
    };
    let step = if quick() { 32 } else { 1 };
    for known in NAMES {
        for place in 0..8 {
            for change in (1..=255).step_by(step) {
                let mut name = *known;
                name[place] ^= change;
                unknown(&name);
            }
        }
        for length in 0..8 {
            unknown(&known[..length]);
            unknown(&known[8 - length..]);
        }
        for length in [9, 16, 264, 65_544] {
            let mut name = known.to_vec();
            name.resize(length, b' ');
            unknown(&name);
        }
        unknown(&known.to_ascii_lowercase());
        unknown(&[&known[..], known].concat());
    }
    for name in [&b"NOON\0\0\0\0"[..], b"    NOON", b"CLOSE\0  ", b"EVENING "] {
        unknown(name);
    }
    for (known, kept) in NAMES.into_iter().zip([0, 17, 0]) {
        assert_eq!(number(&Call::Keep, known), 0);
        assert_eq!(number(&Call::ComeBack, known), kept);
    }
}
