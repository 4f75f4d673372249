//! Keeping and coming back on shelves that are damaged, too short, of another bank count or of any
//! content. Unused places are not read.

use crate::call::Call;
use crate::damage::DAMAGES;
use crate::pair::{tally_cells, Pair};
use crate::plans::{bank_count, graph, memory_of, shelf_of, slices, RANKS};
use crate::{quick, rounds};
use independent::graph::Graph;
use independent::memory::Memory;
use independent::plan::Plan;
use independent::random::Random;
use independent::ranks::drawn_ranks;
use independent::shelf::{kept_cells, place_cells, shelf_cells, NAMES};

fn keep(place: usize) -> Call {
    Call::Keep(NAMES[place].to_vec())
}

fn come_back(place: usize) -> Call {
    Call::ComeBack(NAMES[place].to_vec())
}

/// The number of a call on copies of memory and shelf.
fn number(random: &mut Random, memory: &Memory, shelf: &[u16], call: &Call) -> u16 {
    let mut pair = Pair::with_shelf(memory.clone(), shelf.to_vec(), random.draw());
    pair.call(call).number
}

/// Keeping under any name and coming back to each get 3.
fn no_plan(random: &mut Random, memory: &Memory, shelf: &[u16]) {
    let place = random.below(3);
    assert_eq!(number(random, memory, shelf, &keep(place)), 3);
    for place in 0..3 {
        assert_eq!(number(random, memory, shelf, &come_back(place)), 3);
    }
}

/// Each cell of the shelf with other content: of used places, of unused ones, and beyond the places. In
/// the plan that is kept no rank decides a tie of neighbours, so that any rank up to 9,999 is right; it
/// has two waves, so that each cap from 2 to 24 is.
#[test]
fn each_cell_of_a_shelf() {
    let mut random = Random::new(131);
    let n = 3;
    let step = if quick() { 23 } else { 1 };
    for used in [[true, false, true], [false, true, false]] {
        let (present, other) = (Graph::of(n, [(0, 1)]), Graph::of(n, [(0, 2), (1, 2)]));
        let other = other.with_ranks(vec![9999, 0, 7]);
        let memory = memory_of(&mut random, &present);
        let mut shelf = shelf_of(&mut random, n, used.map(|used| used.then_some(&other)));
        shelf.extend([1, 1, 1]);
        for i in (0..shelf.len()).step_by(step) {
            let (place, cell) = (i / place_cells(n), i % place_cells(n));
            let next = shelf[i].wrapping_add(1);
            for content in [0, 1, 2, 24, 25, 256, 257, next, 65_535] {
                let mut changed = shelf.clone();
                changed[i] = content;
                let last = place_cells(n) - 1;
                let rank = (last - n..last).contains(&cell) && content <= 9999;
                let cap = cell == last && (2..=24).contains(&content);
                let unread = place > 2 || (cell > 0 && !used[place]);
                let whole = content == shelf[i] || unread || rank || cap;
                if !whole && (cell > 0 || content > 0) {
                    no_plan(&mut random, &memory, &changed);
                    continue;
                }
                assert_eq!(number(&mut random, &memory, &changed, &keep(i % 3)), 0);
                for (back, used) in used.into_iter().enumerate() {
                    let kept = used && (whole || back != place);
                    let wanted = if kept { 0 } else { 17 };
                    let got = number(&mut random, &memory, &changed, &come_back(back));
                    assert_eq!(got, wanted, "cell {i} is {content}");
                }
            }
        }
    }
}

/// Writes the memory's cells and tally into a place, as far as its slices go.
fn put(place: &mut [u16], n: usize, memory: &Memory) {
    let tally = tally_cells(memory);
    let parts: [(&[u16], usize); 7] = [
        (&memory.neighbours, 23 * n),
        (&memory.degrees, n),
        (&memory.waves, n),
        (&memory.counts, 24 * n),
        (&tally[..3], 3),
        (&memory.ranks, n),
        (&tally[3..], 1),
    ];
    let mut rest = &mut place[1..];
    for (slice, width) in parts {
        let (part, after) = rest.split_at_mut(width);
        for (cell, content) in part.iter_mut().zip(slice) {
            *cell = *content;
        }
        rest = after;
    }
    assert!(rest.is_empty());
}

/// Each rank of a kept plan with other content: above 9,999 it is no plan, nor where a tie of
/// neighbours goes the other way.
#[test]
fn each_rank_of_a_kept_plan() {
    let mut random = Random::new(136);
    let (mut right, mut wrong) = (0, 0);
    for _ in 0..rounds(60) {
        let n = random.between(1, 12);
        let (present, other) = (graph(&mut random, n), graph(&mut random, n));
        let memory = memory_of(&mut random, &present);
        let place = random.below(3);
        let mut kept = [None; 3];
        kept[place] = Some(&other);
        let whole = shelf_of(&mut random, n, kept);
        for b in 0..n {
            for rank in [0, 1, 2, 5000, 9999, 10_000, 10_001, 65_535] {
                let mut shelf = whole.clone();
                shelf[(place + 1) * place_cells(n) - 1 - n + b] = rank;
                let new = other.ranked(b, rank.into());
                let turned = |q: usize| other.earlier(q, b) != new.earlier(q, b);
                if rank > 9999 || other.neighbours(b).any(turned) {
                    no_plan(&mut random, &memory, &shelf);
                    wrong += usize::from(rank <= 9999);
                    continue;
                }
                let mut pair = Pair::with_shelf(memory.clone(), shelf, random.draw());
                assert_eq!(pair.call(&keep((place + 1) % 3)).number, 0);
                assert_eq!(pair.call(&come_back(place)).number, 0);
                assert_eq!(pair.model.held_graph(), Some(new));
                right += 1;
            }
        }
    }
    assert!(quick() || (right > 200 && wrong > 200), "{right}, {wrong}");
}

/// Each cap of a kept plan: from its waves, and 1, to 24 it comes back; any other is no plan.
#[test]
fn each_cap_of_a_kept_plan() {
    let mut random = Random::new(137);
    for _ in 0..rounds(60) {
        let n = bank_count(&mut random, 40);
        let (present, other) = (graph(&mut random, n), graph(&mut random, n));
        let memory = memory_of(&mut random, &present);
        let waves = Plan::of(&other).tally.waves;
        let place = random.below(3);
        let mut kept = [None; 3];
        kept[place] = Some(&other);
        let whole = shelf_of(&mut random, n, kept);
        for cap in (0..=26).chain([256 + 24, 65_535]) {
            let mut shelf = whole.clone();
            shelf[(place + 1) * place_cells(n) - 1] = cap;
            if !(waves.max(1)..=24).contains(&cap) {
                no_plan(&mut random, &memory, &shelf);
                continue;
            }
            let mut pair = Pair::with_shelf(memory.clone(), shelf, random.draw());
            assert_eq!(pair.call(&keep((place + 1) % 3)).number, 0);
            assert_eq!(pair.call(&come_back(place)).number, 0);
            assert_eq!(pair.model.tally.cap, cap);
            assert_eq!(pair.call(&keep(place)).number, 0);
        }
    }
}

/// Each of the ways to damage a plan, in a place that is used and in one that is not.
#[test]
fn each_damage_of_a_kept_plan() {
    let mut random = Random::new(132);
    let mut seen = 0;
    for round in 0..rounds(60) {
        let n = if round % 20 == 19 {
            random.between(41, 1024)
        } else {
            random.between(2, 40)
        };
        let (present, other) = (graph(&mut random, n), graph(&mut random, n));
        let memory = memory_of(&mut random, &present);
        let whole = memory_of(&mut random, &other);
        let shelf = shelf_of(&mut random, n, [Some(&other), Some(&other), Some(&other)]);
        for damage in DAMAGES {
            let place = random.below(3);
            let mut damaged = whole.clone();
            damage(&mut random, &mut damaged);
            let mut shelf = shelf.clone();
            let cells = &mut shelf[place * place_cells(n)..][..place_cells(n)];
            put(cells, n, &damaged);
            for back in 0..3 {
                let kept = number(&mut random, &memory, &shelf, &keep(back));
                assert_eq!(kept, number(&mut random, &memory, &shelf, &come_back(back)));
                seen += usize::from(kept == 3);
            }
            shelf[place * place_cells(n)] = 0;
            assert_eq!(number(&mut random, &memory, &shelf, &keep(place)), 0);
            for back in 0..3 {
                let wanted = if back == place { 17 } else { 0 };
                let got = number(&mut random, &memory, &shelf, &come_back(back));
                assert_eq!(got, wanted);
            }
        }
    }
    assert!(quick() || seen > 2000, "{seen} times 3");
}

/// A used place that holds a plan of fewer banks: at the front of each of its parts, or at its own
/// front; and one whose tally names more.
#[test]
fn kept_plans_of_another_bank_count() {
    let mut random = Random::new(133);
    for _ in 0..rounds(200) {
        let n = bank_count(&mut random, 40).max(1);
        let fewer = random.below(n);
        let small = graph(&mut random, fewer);
        let clashes: Vec<(usize, usize)> = (0..fewer)
            .flat_map(|a| small.neighbours(a).map(move |b| (a, b)))
            .collect();
        let more = drawn_ranks(&mut random, n - fewer);
        let present = Graph::of(n, clashes).with_ranks([small.ranks(), &more].concat());
        let memory = memory_of(&mut random, &present);
        let place = random.below(3);
        let start = place * place_cells(n);
        let mut kept = [None; 3];
        kept[place] = Some(&present);
        let whole = shelf_of(&mut random, n, kept);
        assert_eq!(number(&mut random, &memory, &whole, &come_back(place)), 0);
        let cells = kept_cells(&Plan::of(&small));
        let tally = &cells[49 * fewer + 1..][..3];
        let mut shelf = whole.clone();
        shelf[start + 49 * n + 1..][..3].copy_from_slice(tally);
        no_plan(&mut random, &memory, &shelf);
        let mut shelf = whole.clone();
        shelf[start..][..cells.len()].copy_from_slice(&cells);
        no_plan(&mut random, &memory, &shelf);
        for more in [n as u16 + 1, 1024, 1025, 65_535] {
            let mut shelf = whole.clone();
            shelf[start + 49 * n + 1] = more;
            no_plan(&mut random, &memory, &shelf);
        }
    }
}

/// All sets of faults, in slices that have not a cell to spare: too many banks, a slice that is a
/// cell short, memory without a plan, a place without one, an unknown name, nothing kept. The first
/// no wins. Keeping is not lent the trail and moved slices, coming back not the trail.
#[test]
fn the_first_no_on_a_shelf() {
    let mut random = Random::new(134);
    let sizes: &[usize] = if quick() { &[2] } else { &[1, 2, 5, 30] };
    for &n in sizes {
        let (present, other) = (graph(&mut random, n), graph(&mut random, n));
        for (faults, short) in (0..64).flat_map(|faults| (0..7).map(move |short| (faults, short))) {
            let fault = |i: usize| faults >> i & 1 == 1;
            let noon = if fault(5) { None } else { Some(&other) };
            let mut shelf = shelf_of(&mut random, n, [Some(&other), noon, None]);
            shelf.truncate(shelf_cells(n) - usize::from(fault(1) && short == 6));
            let mut memory = Memory::filled(n, 7);
            memory.store_plan(&present);
            memory.trail.clear();
            if fault(2) {
                memory.waves[n - 1] += 1;
            }
            if fault(3) {
                let cap = place_cells(n) - 1;
                let wrongs = [(49 * n + 3, 25), (cap - 1, 10_000), (cap, 0), (cap, 25)];
                let (place, wrong) = *random.pick(&wrongs);
                shelf[place] = wrong;
            }
            if fault(1) && short < 6 {
                let place = [0, 1, 2, 3, RANKS, 6][short];
                slices(&mut memory)[place].pop();
            }
            if fault(0) {
                memory.tally.banks = 1025;
            }
            let name = if fault(4) { b"NOON   \0" } else { NAMES[1] };
            let wanted = |moved_lent: bool| match () {
                _ if fault(0) => 1,
                _ if fault(1) && (moved_lent || short != 5) => 2,
                _ if fault(2) || fault(3) => 3,
                _ if fault(4) => 16,
                _ if fault(5) && moved_lent => 17,
                _ => 0,
            };
            let keep = Call::Keep(name.to_vec());
            let back = Call::ComeBack(name.to_vec());
            assert_eq!(number(&mut random, &memory, &shelf, &keep), wanted(false));
            assert_eq!(number(&mut random, &memory, &shelf, &back), wanted(true));
        }
    }
}

/// Shelves of any length, with used cells near to 0 and 1 and places of any content or a plan's.
#[test]
fn calls_on_any_shelf() {
    let mut random = Random::new(135);
    let mut numbers = [0; 18];
    for _ in 0..rounds(6000) {
        let n = bank_count(&mut random, 12);
        let present = graph(&mut random, n);
        let memory = memory_of(&mut random, &present);
        let kept = [(); 3].map(|()| random.one_in(2).then_some(&present));
        let mut shelf = shelf_of(&mut random, n, kept);
        if random.one_in(3) {
            let place = random.below(3);
            shelf[place * place_cells(n)] = *random.pick(&[0, 1, 1, 2, 256]);
        }
        if random.one_in(4) {
            shelf.truncate(random.between(shelf_cells(n) / 2, shelf_cells(n) + 1));
        }
        let mut name = random.pick(&NAMES).to_vec();
        if random.one_in(6) {
            name.truncate(random.between(4, 8));
        }
        for call in [Call::Keep(name.clone()), Call::ComeBack(name)] {
            let number = number(&mut random, &memory, &shelf, &call);
            numbers[usize::from(number)] += 1;
        }
    }
    let often = [0, 2, 3, 16, 17].iter().all(|&i| numbers[i] > 100);
    assert!(quick() || often, "{numbers:?}");
}
