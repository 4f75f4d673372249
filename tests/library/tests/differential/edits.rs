//! Sequences of edits from random plans, under caps that come and go: accepted ones, and refused ones
//! of each number.

use crate::call::Call;
use crate::damage;
use crate::pair::Pair;
use crate::plans::{any_cap, any_memory, bank_count, graph, needed, poster_length, row};
use crate::plans::{sheet_length, slices, store, SLICES};
use crate::{quick, rounds};
use independent::plan::MAX_DEGREE;
use independent::random::Random;
use independent::sheet::sheet_text;
use independent::sheets::other_waves;

/// What came up in a number of sequences.
#[derive(Debug, Default)]
struct Seen {
    /// How many edits got each number.
    numbers: [usize; 21],
    /// How many caps got each number.
    caps: [usize; 21],
    adds: usize,
    strikes: usize,
    longest_trail: usize,
    longest_moved: usize,
    most_banks: usize,
    most_waves: u16,
    full_degrees: usize,
}

impl Seen {
    /// Each number that edits and caps can get has come up more often.
    fn each_number(&self, times: usize) {
        let all = |numbers: &[usize], of: &[usize]| numbers.iter().all(|&i| of[i] > times);
        let edits = all(&[0, 1, 2, 3, 4, 5, 6, 7, 8, 20], &self.numbers);
        assert!(edits && all(&[0, 19, 20], &self.caps), "{self:?}");
    }
}

#[test]
fn sequences_on_few_banks() {
    let seen = sequences(rounds(240), 60, 61, |random| bank_count(random, 100));
    if !quick() {
        seen.each_number(20);
        assert!(seen.adds > 1000 && seen.strikes > 1000, "{seen:?}");
        assert!(seen.most_waves == 24 && seen.full_degrees > 20, "{seen:?}");
    }
}

#[test]
fn sequences_on_many_banks() {
    let sizes = [1024, 1023, 500, 200, 1024, 300];
    let mut next = sizes.iter().cycle();
    let seen = sequences(rounds(36), 40, 62, move |_| {
        *next.next().expect("sizes come round")
    });
    if !quick() {
        seen.each_number(4);
        assert!(seen.adds > 200 && seen.strikes > 200, "{seen:?}");
        assert!(seen.most_banks == 1024, "{seen:?}");
        assert!(seen.most_waves == 24 && seen.full_degrees > 2, "{seen:?}");
        assert!(
            seen.longest_trail > 100 && seen.longest_moved > 40,
            "{seen:?}"
        );
    }
}

/// So many sequences of so many calls.
fn sequences(
    sequences: usize,
    calls: usize,
    seed: u64,
    mut bank_count: impl FnMut(&mut Random) -> usize,
) -> Seen {
    let mut random = Random::new(seed);
    let mut seen = Seen::default();
    for _ in 0..sequences {
        let n = bank_count(&mut random);
        let mut pair = opened(&mut random, n);
        for _ in 0..calls {
            step(&mut random, &mut pair, &mut seen);
        }
    }
    seen
}

/// Memory of any content, opened for n banks, and then, as a rule, given the plan of a graph.
fn opened(random: &mut Random, n: usize) -> Pair {
    let seed = random.draw();
    let mut pair = Pair::new(any_memory(random, n), seed);
    assert_eq!(pair.call(&Call::Open(n as u16)).number, 0);
    if random.one_in(4) {
        return pair;
    }
    let graph = graph(random, n);
    store(random, &mut pair.model, &graph);
    Pair::new(pair.model, seed)
}

/// One call: an edit of two banks that can be made if the cap allows it, one that is refused, a cap, or
/// a question.
fn step(random: &mut Random, pair: &mut Pair, seen: &mut Seen) {
    match random.below(11) {
        0..=3 => {
            if let Some(call) = good_add(random, pair) {
                edit(pair, &call, seen);
            }
        }
        4..=6 => {
            if let Some(call) = good_strike(random, pair) {
                edit(pair, &call, seen);
            }
        }
        7 | 8 => refused_edit(random, pair, seen),
        9 => {
            let call = some_cap(random, pair);
            let number = pair.call(&call).number;
            seen.caps[usize::from(number)] += 1;
        }
        _ => question(random, pair),
    }
}

/// A cap that the plan can have, one that is too low, or none.
pub fn some_cap(random: &mut Random, pair: &Pair) -> Call {
    let waves = pair.model.tally.waves;
    Call::SetCap(match random.below(6) {
        0 => waves.saturating_sub(1),
        1 => *random.pick(&[0, 25, 256, 65_535]),
        _ => any_cap(random, waves),
    })
}

/// An edit on both, counted.
fn edit(pair: &mut Pair, call: &Call, seen: &mut Seen) {
    let answer = pair.call(call);
    seen.numbers[usize::from(answer.number)] += 1;
    if answer.number != 0 {
        return;
    }
    match call {
        Call::Add(..) => seen.adds += 1,
        _ => seen.strikes += 1,
    }
    let model = &pair.model;
    let n = usize::from(model.tally.banks);
    seen.longest_moved = seen.longest_moved.max(answer.results[0]);
    seen.longest_trail = seen.longest_trail.max(answer.results[1]);
    seen.most_banks = seen.most_banks.max(n);
    seen.most_waves = seen.most_waves.max(model.tally.waves);
    let full = model.degrees[..n].iter().filter(|&&d| d == 23).count();
    seen.full_degrees = seen.full_degrees.max(full);
}

/// Two banks that do not clash and have room, if some tries find them.
pub fn good_add(random: &mut Random, pair: &Pair) -> Option<Call> {
    let model = &pair.model;
    let n = usize::from(model.tally.banks);
    let room = |b: usize| usize::from(model.degrees[b]) < MAX_DEGREE;
    for _ in 0..if n < 2 { 0 } else { 60 } {
        let (a, b) = (random.below(n), random.below(n));
        let free = !row(model, a).contains(&(b as u16));
        if a != b && free && room(a) && room(b) {
            return Some(Call::Add(a as u16, b as u16));
        }
    }
    None
}

/// Two banks that clash, if some tries find them.
pub fn good_strike(random: &mut Random, pair: &Pair) -> Option<Call> {
    let (a, b) = clash(random, pair)?;
    Some(Call::Strike(a, b))
}

fn clash(random: &mut Random, pair: &Pair) -> Option<(u16, u16)> {
    let model = &pair.model;
    let n = usize::from(model.tally.banks);
    for _ in 0..if n == 0 { 0 } else { 60 } {
        let a = random.below(n);
        if model.degrees[a] > 0 {
            return Some((a as u16, *random.pick(row(model, a))));
        }
    }
    None
}

/// An edit that is refused with one of the numbers 1 to 8, whatever the cap is, if the plan has a case of it. Few plans have
/// one of the last.
fn refused_edit(random: &mut Random, pair: &mut Pair, seen: &mut Seen) {
    let n = usize::from(pair.model.tally.banks);
    let any = |random: &mut Random| random.below(n.max(1)) as u16;
    let (a, b) = (any(random), any(random));
    match random.between(1, 12) {
        kind @ 1..=3 => on_damaged_memory(random, pair, seen, kind),
        4 => {
            let far = *random.pick(&[n as u16, n as u16 + 1, 1024, 65_535]);
            let (a, b) = *random.pick(&[(a, far), (far, b), (far, far)]);
            edit(pair, &either(random, a, b), seen);
        }
        5 => edit(pair, &either(random, a, a), seen),
        6 => {
            if let Some((a, b)) = clash(random, pair) {
                edit(pair, &Call::Add(a, b), seen);
            }
        }
        7 => edit(pair, &Call::Strike(a, b), seen),
        _ => {
            let full = (0..n).find(|&b| usize::from(pair.model.degrees[b]) == MAX_DEGREE);
            if let Some(full) = full.map(|full| full as u16) {
                let near = row(&pair.model, full.into());
                let free = |q: &u16| *q != full && !near.contains(q);
                let free: Vec<u16> = (0..n as u16).filter(free).chain([a]).collect();
                let other = *random.pick(&free);
                let (a, b) = *random.pick(&[(full, other), (other, full)]);
                edit(pair, &Call::Add(a, b), seen);
            }
        }
    }
}

/// An edit on a copy of the memory that has too many banks, a short slice or no plan.
fn on_damaged_memory(random: &mut Random, pair: &Pair, seen: &mut Seen, kind: usize) {
    let mut memory = pair.model.clone();
    let n = usize::from(memory.tally.banks);
    match kind {
        1 => memory.tally.banks = random.between(1025, 65_535) as u16,
        2 if n > 0 => {
            let place = random.below(SLICES);
            let most = needed(n)[place] - 1;
            let length = *random.pick(&[0, most / 2, most, most]);
            slices(&mut memory)[place].truncate(length);
        }
        _ => damage::one_cell(random, &mut memory),
    }
    let (a, b) = (random.below(n + 1) as u16, random.below(n + 1) as u16);
    let mut damaged = Pair::new(memory, random.draw());
    edit(&mut damaged, &either(random, a, b), seen);
}

fn either(random: &mut Random, a: u16, b: u16) -> Call {
    if random.one_in(2) {
        Call::Add(a, b)
    } else {
        Call::Strike(a, b)
    }
}

/// A call that changes nothing.
fn question(random: &mut Random, pair: &mut Pair) {
    let n = usize::from(pair.model.tally.banks);
    let b = random.below(n + 2) as u16;
    pair.call(&Call::WaveBound);
    pair.call(&Call::WaveByRule(b));
    pair.call(&Call::CrewSteps(random.below(66) as u16, vec![b; n]));
    pair.call(&Call::LeastCrew(random.below(n + 2) as u16));
    if let Some(graph) = pair.model.held_graph().filter(|_| random.one_in(4)) {
        let waves = other_waves(random, &graph);
        let sheet = sheet_text(&waves, graph.clashes());
        pair.call(&Call::CheckSheet(sheet.into_bytes()));
    }
    let call = match random.below(3) {
        0 => Call::WaveOf(b),
        1 => Call::ClashesOf(b),
        _ => {
            pair.call(&Call::WritePoster(poster_length(&pair.model)));
            let length = sheet_length(&pair.model);
            Call::WriteSheet(random.between(length - 1, length + 20))
        }
    };
    pair.call(&call);
}
