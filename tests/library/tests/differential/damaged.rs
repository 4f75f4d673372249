//! Calls on damaged memory: the number is the one due, and nothing changes.

use crate::call::Call;
use crate::damage::DAMAGES;
use crate::pair::Pair;
use crate::plans::{bank_count, graph, memory_of, row, sheet_length, shelf_of, slices, SLICES};
use crate::{quick, rounds};
use independent::journal::{journal_of, Entry, Field, Form};
use independent::memory::Memory;
use independent::random::Random;
use independent::reach::Edit;

/// How many calls got each number.
type Numbers = [usize; 28];

#[test]
fn calls_on_damaged_plans() {
    let mut random = Random::new(71);
    let mut numbers = Numbers::default();
    for _ in 0..rounds(3000) {
        let n = bank_count(&mut random, 60).max(2);
        calls_on_damaged_copies(&mut random, n, 10, &mut numbers);
    }
    if !quick() {
        assert!(numbers[1..=3].iter().sum::<usize>() > 20_000, "{numbers:?}");
        assert!(
            numbers[1..=3].iter().all(|&times| times > 600),
            "{numbers:?}"
        );
    }
}

#[test]
fn calls_on_damaged_plans_of_many_banks() {
    let mut random = Random::new(72);
    let mut numbers = Numbers::default();
    for _ in 0..rounds(60) {
        let any = random.between(61, 1024);
        let n = *random.pick(&[1024, 1023, any]);
        calls_on_damaged_copies(&mut random, n, 10, &mut numbers);
    }
    if !quick() {
        assert!(numbers[1..=3].iter().all(|&times| times > 8), "{numbers:?}");
    }
}

/// Each of the ways to damage a plan, on each call that asks whether memory holds a plan.
#[test]
fn each_damage_is_seen_by_each_call() {
    let mut random = Random::new(73);
    for _ in 0..rounds(40) {
        let n = random.between(2, 40);
        let graph = graph(&mut random, n);
        let whole = memory_of(&mut random, &graph);
        let shelf = shelf_of(&mut random, n, [None, None, Some(&graph)]);
        for damage in DAMAGES {
            let mut memory = whole.clone();
            damage(&mut random, &mut memory);
            for call in [
                Call::Add(0, 1),
                Call::Strike(1, 0),
                Call::SetCap(24),
                Call::WaveOf(1),
                Call::ClashesOf(0),
                Call::WaveBound,
                Call::WaveByRule(0),
                Call::CrewSteps(2, vec![7; n]),
                Call::LeastCrew(n as u16),
                Call::WriteSheet(5000),
                Call::StartJournal(vec![0; 4000]),
                Call::Record(any_entry(0, 1), any_journal(&memory), 5),
                Call::WritePoster(8200),
                Call::Keep(b"NOON    ".to_vec()),
                Call::ComeBack(b"CLOSE   ".to_vec()),
                Call::CheckSheet(own_sheet(&whole)),
            ] {
                Pair::with_shelf(memory.clone(), shelf.clone(), random.draw()).call(&call);
            }
        }
    }
}

/// Memory of any content and any lengths.
#[test]
fn calls_on_any_memory() {
    let mut random = Random::new(74);
    let mut numbers = Numbers::default();
    for _ in 0..rounds(12_000) {
        let memory = any_memory(&mut random);
        let call = any_call(&mut random, &memory);
        count(&mut numbers, memory, &call, &mut random);
    }
    if !quick() {
        assert!(
            numbers[..=3].iter().all(|&times| times > 100),
            "{numbers:?}"
        );
    }
}

/// A random plan, and so many calls, each on a copy that is damaged in one way or two.
fn calls_on_damaged_copies(random: &mut Random, n: usize, calls: usize, numbers: &mut Numbers) {
    let whole = graph(random, n);
    let whole = memory_of(random, &whole);
    for _ in 0..calls {
        let call = any_call(random, &whole);
        let mut memory = whole.clone();
        random.pick(&DAMAGES)(random, &mut memory);
        if random.one_in(8) {
            shorten(random, &mut memory);
        }
        count(numbers, memory, &call, random);
    }
}

/// Makes the call, and for a sheet also that for the poster, and counts the call's number.
fn count(numbers: &mut Numbers, memory: Memory, call: &Call, random: &mut Random) {
    if let Call::WriteSheet(space) = call {
        Pair::new(memory.clone(), 75).call(&Call::WritePoster(*space));
    }
    let answer = Pair::new(memory, random.draw()).call(call);
    numbers[usize::from(answer.number)] += 1;
}

/// One slice is cut at any length.
fn shorten(random: &mut Random, memory: &mut Memory) {
    let slice = random.below(SLICES);
    let slice = &mut slices(memory)[slice];
    slice.truncate(random.below(slice.len() + 1));
}

/// Slices of any lengths, with room for some banks or not, and any content, near to a plan's or
/// not.
fn any_memory(random: &mut Random) -> Memory {
    let mut memory = Memory::filled(0, 0);
    let room = random.below(12);
    let widths = [23, 1, 1, 24, 1, 1, 1];
    let limit = *random.pick(&[1, 2, 24, 1024, 65_536]);
    for (slice, width) in slices(&mut memory).into_iter().zip(widths) {
        let cells = width * room + random.below(3);
        let cells = cells - random.below(2).min(cells);
        *slice = (0..cells).map(|_| any_cell(random, limit)).collect();
    }
    let banks = *random.pick(&[2, room + 2, 1100, 65_536]);
    memory.tally.banks = any_cell(random, banks);
    memory.tally.clashes = any_cell(random, limit);
    memory.tally.waves = any_cell(random, limit);
    memory.tally.cap = match random.below(3) {
        0 => any_cell(random, limit),
        _ => random.between(1, 24) as u16,
    };
    memory
}

fn any_cell(random: &mut Random, limit: usize) -> u16 {
    if random.one_in(3) {
        65_535
    } else {
        random.below(limit) as u16
    }
}

/// Any call, with arguments that fit the memory before it was damaged or do not. Those that ask
/// whether memory holds a plan are the most frequent.
fn any_call(random: &mut Random, memory: &Memory) -> Call {
    let n = usize::from(memory.tally.banks);
    let any = |random: &mut Random| match random.below(12) {
        0 => random.draw() as u16,
        1 => n as u16,
        _ => random.below(n.max(1)) as u16,
    };
    let (a, b) = (any(random), any(random));
    match random.below(45) {
        0 => Call::Open(a),
        1 => Call::ReadList(any_list(random, a)),
        2..=9 => Call::Add(a, b),
        10..=13 => Call::Strike(a, b),
        14..=17 => match memory.holds_plan() && a < memory.tally.banks {
            true => Call::Strike(a, *row(memory, a.into()).first().unwrap_or(&b)),
            false => Call::Strike(b, a),
        },
        18..=20 => Call::WaveOf(a),
        21 => Call::WaveBound,
        22..=25 => Call::ClashesOf(b),
        26 | 27 => Call::StartJournal(vec![b'#'; random.below(2000)]),
        28 | 29 => Call::Record(any_entry(a, b), any_journal(memory), 5),
        30..=32 => Call::SetCap(random.below(27) as u16),
        33 | 34 => Call::WaveByRule(a),
        35 | 36 => {
            let cells = n.min(1024) + random.below(3);
            let cells = cells - random.below(2).min(cells);
            Call::CrewSteps(random.below(67) as u16, vec![b; cells])
        }
        37 => Call::LeastCrew(*random.pick(&[0, 1, a, b, 1024, 1025])),
        38..=40 => Call::CheckSheet(own_sheet(memory)),
        _ => {
            let enough = sheet_length(memory) + 2;
            let any = random.below(enough);
            Call::WriteSheet(*random.pick(&[any, enough, 5000]))
        }
    }
}

/// The sheet of memory that holds a plan, or nothing.
fn own_sheet(memory: &Memory) -> Vec<u8> {
    let mut sheet = vec![0; 5000];
    let length = memory.write_sheet(&mut sheet).length;
    sheet.truncate(length);
    sheet
}

/// An edit of two banks: an add if the first is smaller, else a strike.
fn any_entry(a: u16, b: u16) -> Entry {
    let edit = if a < b { Edit::Add } else { Edit::Strike };
    Entry { edit, a, b }
}

/// A journal of the memory's banks without an edit, five bytes, and space for one.
fn any_journal(memory: &Memory) -> Vec<u8> {
    let mut journal = journal_of::<Field>(Form::Numbered, memory.tally.banks, &[]);
    journal.resize(16, b'#');
    journal
}

/// A short list for about n banks, with rows that are refused or not.
fn any_list(random: &mut Random, n: u16) -> Vec<u8> {
    let n = usize::from(n) + random.below(2);
    let mut list = format!("N {n}");
    for _ in 0..random.below(6) {
        let (a, b) = (random.below(n + 1), random.below(n + 1));
        list += *random.pick(&["\nK ", "\n+ ", "\n+ ", "\n- ", "\n +"]);
        list += &format!("{a} {b}");
    }
    list.into_bytes()
}
