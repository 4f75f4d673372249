//! Starting journals and recording edits: slices with just enough space, one byte less or bytes to
//! spare, journals that are cut or damaged, and a replay after each step.

use crate::call::{Answer, Call};
use crate::damage::DAMAGES;
use crate::edits::some_cap;
use crate::pair::Pair;
use crate::plans::{any_memory, bank_count, blocks, graph, memory_of, row};
use crate::{quick, rounds};
use independent::graph::Graph;
use independent::journal::{field_bytes, journal_of, started, Entry, Field, Form, FORMS};
use independent::journals::{drawn_fields, wrong_number};
use independent::memory::Memory;
use independent::random::Random;
use independent::reach::Edit;
use std::collections::BTreeSet;

fn entry(edit: Edit, a: u16, b: u16) -> Entry {
    Entry { edit, a, b }
}

/// The bytes, and so many others after them.
fn with_spare(random: &mut Random, bytes: &[u8], spare: usize) -> Vec<u8> {
    let others = (0..spare).map(|_| random.byte());
    bytes.iter().copied().chain(others).collect()
}

/// The journal replays with no refusal, nothing left over, to the plan of the graph, with cap 24.
pub fn replays_to(random: &mut Random, journal: &[u8], graph: &Option<Graph>) {
    let n = graph.as_ref().expect("a plan").banks();
    let mut pair = Pair::new(any_memory(random, n), random.draw());
    let answer = pair.call(&Call::Replay(journal.to_vec()));
    assert_eq!((answer.number, &answer.results[..]), (0, &[0, 0][..]));
    assert!(pair.model.held_graph() == *graph, "the present plan");
    assert_eq!(pair.model.tally.cap, 24);
}

#[test]
fn new_journals_of_random_plans() {
    let mut random = Random::new(101);
    for round in 0..rounds(200) {
        let most = if round % 20 == 0 { 1024 } else { 60 };
        let n = bank_count(&mut random, most);
        let graph = graph(&mut random, n);
        let memory = memory_of(&mut random, &graph);
        let length = started(&graph).len();
        let enough = if length > 60_000 { 15 } else { 0 };
        let mut pair = Pair::new(memory, random.draw());
        let spare = length + random.between(1, 100);
        let short = random.below(length);
        for (space, number) in [
            (length, enough),
            (length - 1, 15),
            (spare, enough),
            (short, 15),
        ] {
            let slice = with_spare(&mut random, &[], space);
            let answer = pair.call(&Call::StartJournal(slice));
            assert_eq!(answer.number, number);
            if number == 0 {
                assert_eq!(answer.results, [length]);
                replays_to(&mut random, &answer.output[..length], &Some(graph.clone()));
            }
        }
    }
}

/// 5,454 ranks and clashes fill 59,999 bytes; one more of either does not fit 60,000.
#[test]
fn new_journals_at_the_limit() {
    let mut random = Random::new(102);
    let full = blocks(1024, 24);
    let clashes = |b: usize| {
        full.neighbours(b)
            .filter(move |&q| q < b)
            .map(move |q| (q, b))
    };
    let clashes: Vec<(usize, usize)> = (0..1024).flat_map(clashes).collect();
    for (ranks, count, space, number) in [
        (0, 5454, 59_998, 15),
        (0, 5454, 59_999, 0),
        (0, 5454, 60_000, 0),
        (0, 5454, 70_000, 0),
        (0, 5455, 60_000, 15),
        (0, 5455, 60_010, 15),
        (0, 5455, 70_000, 15),
        (0, clashes.len(), 200_000, 15),
        (1, 5454, 70_000, 15),
        (1, 5453, 59_998, 15),
        (1, 5453, 59_999, 0),
        (1024, 4430, 59_998, 15),
        (1024, 4430, 59_999, 0),
        (1024, 4431, 70_000, 15),
        (1024, 0, 11_269, 0),
        (1024, 0, 11_268, 15),
    ] {
        let rank = |b: usize| if b < ranks { 9999 - b } else { 0 };
        let graph = Graph::of(1024, clashes[..count].iter().copied());
        let graph = graph.with_ranks((0..1024).map(rank).collect());
        let memory = memory_of(&mut random, &graph);
        let slice = with_spare(&mut random, &[], space);
        let answer = Pair::new(memory, 102).call(&Call::StartJournal(slice));
        let what = format!("{ranks} ranks and {count} clashes in {space} bytes");
        assert_eq!(answer.number, number, "{what}");
    }
}

/// A plan, and the slice of its journal, which has so many bytes.
struct Recorder {
    pair: Pair,
    slice: Vec<u8>,
    length: usize,
}

impl Recorder {
    /// A new journal of the memory's plan, with space for some edits more.
    fn start(random: &mut Random, memory: Memory, spare: usize) -> Recorder {
        let graph = memory.held_graph().expect("a plan");
        let space = started(&graph).len() + spare;
        let mut pair = Pair::new(memory, random.draw());
        let answer = pair.call(&Call::StartJournal(with_spare(random, &[], space)));
        assert_eq!(answer.number, 0);
        Recorder {
            pair,
            slice: answer.output,
            length: answer.results[0],
        }
    }

    /// Makes an edit and keeps the journal.
    fn record(&mut self, entry: Entry) -> Answer {
        let call = Call::Record(entry, self.slice.clone(), self.length);
        let answer = self.pair.call(&call);
        self.slice = answer.output.clone();
        if answer.number == 0 {
            self.length = answer.results[2];
        }
        answer
    }

    /// Goes on with the journal of length 4 instead, of the same clashes and ranks.
    fn in_plain_form(mut self, random: &mut Random) -> Recorder {
        let numbered = self.slice[5..self.length].chunks_exact(11);
        let plain = numbered.flat_map(|field| [&[field[0], 4, 0], &field[7..]].concat());
        let journal: Vec<u8> = self.slice[..5].iter().copied().chain(plain).collect();
        self.length = journal.len();
        let spare = random.below(200);
        self.slice = with_spare(random, &journal, spare);
        self
    }

    fn journal(&self) -> &[u8] {
        &self.slice[..self.length]
    }
}

/// An edit: of a clash that is there, of any two banks, or of a bank that is not there.
fn any_entry(random: &mut Random, model: &Memory) -> Entry {
    let n = model.tally.banks.max(1);
    let any = |random: &mut Random| random.below(n.into()) as u16;
    let (a, b) = (any(random), any(random));
    let clash = row(model, a.into()).first().copied();
    match (clash, random.below(12)) {
        (Some(b), 0..=3) => entry(Edit::Strike, a, b),
        (Some(b), 4) => entry(Edit::Add, b, a),
        (_, 5) => entry(Edit::Strike, a, b),
        (_, 6) => entry(Edit::Add, a, a),
        (_, 7) => entry(Edit::Add, a, *random.pick(&[n, 1024, 65_535])),
        _ => entry(Edit::Add, a, b),
    }
}

/// Sequences of edits, accepted and refused, until the slice has no space, under caps that come and go.
/// After each one the journal replays to the present plan in all but the cap.
#[test]
fn sequences_of_recorded_edits() {
    let mut random = Random::new(103);
    let mut numbers = BTreeSet::new();
    for _ in 0..rounds(80) {
        let n = bank_count(&mut random, 60).max(2);
        let graph = graph(&mut random, n);
        let memory = memory_of(&mut random, &graph);
        let spare = random.below(300);
        let mut recorder = Recorder::start(&mut random, memory, spare);
        if random.one_in(2) {
            recorder = recorder.in_plain_form(&mut random);
        }
        for _ in 0..40 {
            if random.one_in(6) {
                let cap = some_cap(&mut random, &recorder.pair);
                recorder.pair.call(&cap);
            }
            let entry = any_entry(&mut random, &recorder.pair.model);
            numbers.insert(recorder.record(entry).number);
            let graph = recorder.pair.model.held_graph();
            replays_to(&mut random, recorder.journal(), &graph);
        }
    }
    if !quick() {
        assert_eq!(numbers, BTreeSet::from([0, 4, 5, 6, 7, 8, 15, 20]));
    }
}

/// A journal of ranks and edits on n banks, and memory that holds their plan.
fn recorded(random: &mut Random, form: Form, n: usize, draws: usize) -> (Vec<u8>, Memory) {
    let fields = drawn_fields(random, n, n, draws);
    let journal = journal_of(form, n as u16, &fields);
    let mut memory = any_memory(random, n);
    assert_eq!(memory.replay(&journal).number, 0);
    (journal, memory)
}

/// Two banks that do not clash, and an edit that adds them.
fn good_add(memory: &Memory) -> Entry {
    let n = memory.tally.banks;
    let pairs = (0..n).flat_map(|a| (0..a).map(move |b| (a, b)));
    let free = |&(a, b): &(u16, u16)| !row(memory, a.into()).contains(&b);
    let (a, b) = pairs.into_iter().find(free).expect("two free banks");
    entry(Edit::Add, a, b)
}

/// Each length from 0 to beyond the slice, for slices with much, just enough, and too little space.
#[test]
fn each_length_of_a_journal() {
    let mut random = Random::new(104);
    for round in 0..rounds(8) {
        let form = FORMS[round % 2];
        let size = form.entry_bytes();
        let (journal, memory) = recorded(&mut random, form, 30, 20);
        let add = good_add(&memory);
        for spare in [0, 6, 7, 8, 10, 11, 12, 30] {
            let slice = with_spare(&mut random, &journal, spare);
            for length in 0..=slice.len() + 2 {
                let mut pair = Pair::new(memory.clone(), random.draw());
                let number = pair.call(&Call::Record(add, slice.clone(), length)).number;
                let whole = length >= 5 && (length - 5) % size == 0;
                let needed = if length == 5 { 11 } else { size };
                let wanted = match length {
                    0..=4 => 13,
                    _ if length > slice.len() => 13,
                    _ if length > journal.len() => number,
                    _ if !whole => 14,
                    _ if slice.len() < length + needed => 15,
                    _ => 0,
                };
                assert_eq!(number, wanted, "length {length} of {}", slice.len());
            }
            for length in [
                59_999,
                60_000,
                60_001,
                65_536,
                65_541,
                usize::MAX - 6,
                usize::MAX,
            ] {
                let wanted = if length > 60_000 { 9 } else { 13 };
                let mut pair = Pair::new(memory.clone(), random.draw());
                let call = Call::Record(add, slice.clone(), length);
                assert_eq!(pair.call(&call).number, wanted);
            }
        }
    }
}

/// The last field that 60,000 bytes take ends at byte 59,995, or at 59,999 where fields are numbered.
#[test]
fn recording_at_the_limit() {
    let mut random = Random::new(105);
    let (a, b) = (entry(Edit::Add, 0, 1), entry(Edit::Strike, 1, 0));
    for (form, fields, last) in [(Form::Plain, 8569, 59_995), (Form::Numbered, 5453, 59_999)] {
        let entries: Vec<Entry> = [a, b].into_iter().cycle().take(fields).collect();
        let journal = journal_of(form, 9, &entries);
        let memory = memory_of(&mut random, &Graph::of(9, [(0, 1)]));
        for space in [last - 1, last, 60_000, 60_012, 70_000] {
            let slice = with_spare(&mut random, &journal, space - journal.len());
            let mut recorder = Recorder {
                pair: Pair::new(memory.clone(), random.draw()),
                slice,
                length: journal.len(),
            };
            let (first, next) = if space < last { (15, b) } else { (0, a) };
            assert_eq!(recorder.record(b).number, first, "{space} bytes");
            assert_eq!(recorder.record(next).number, 15, "{space} bytes");
        }
        let slice = with_spare(&mut random, &journal, 10_000);
        let call = Call::Record(b, slice, 60_001);
        assert_eq!(Pair::new(memory, 105).call(&call).number, 9);
    }
}

/// Journals of numbered fields with one wrong number, with a field of the other length, or both: 14, then
/// 21, then 18, at the first such field, and nothing is recorded.
#[test]
fn wrong_numbers_and_lengths_so_far() {
    let mut random = Random::new(108);
    let mut numbers = BTreeSet::new();
    for _ in 0..rounds(3000) {
        let graph = graph(&mut random, 5);
        let memory = memory_of(&mut random, &graph);
        let form = *random.pick(&[Form::Numbered, Form::Numbered, Form::Plain]);
        let mut journal = journal_of::<Field>(form, 5, &[]);
        let mut wanted = None;
        let mut begun = false;
        for number in 1..=random.below(5) as u32 {
            let rank = random.one_in(4);
            let field = if rank {
                let (bank, rank) = (4, *random.pick(&[1, 9999, 10_000]));
                Field::Rank { bank, rank }
            } else {
                Field::Edit(entry(Edit::Add, 9, 9))
            };
            let other = number > 1 && random.one_in(8);
            let off = form == Form::Numbered && random.one_in(6);
            let written = if off {
                wrong_number(&mut random, number)
            } else {
                number
            };
            let is = match (form, other) {
                (Form::Numbered, false) | (Form::Plain, true) => Form::Numbered,
                _ => Form::Plain,
            };
            let above = matches!(field, Field::Rank { rank: 10_000, .. });
            let no = match (other || above, off, rank && begun) {
                (true, _, _) => Some(14),
                (_, true, _) => Some(21),
                (_, _, true) => Some(18),
                _ => None,
            };
            wanted = wanted.or(no);
            begun |= !rank;
            journal.extend(field_bytes(is, written, field));
        }
        let add = any_entry(&mut random, &memory);
        let slice = with_spare(&mut random, &journal, 11);
        let mut pair = Pair::new(memory, random.draw());
        let number = pair.call(&Call::Record(add, slice, journal.len())).number;
        match wanted {
            Some(wanted) => assert_eq!(number, wanted, "{journal:?}"),
            None => assert!(![14, 18, 21].contains(&number), "{journal:?}"),
        }
        numbers.insert(number);
    }
    if !quick() {
        for number in [0, 4, 5, 14, 18, 21] {
            assert!(numbers.contains(&number), "no {number}");
        }
    }
}

/// Recording into journals with K fields in all places: the first field with a no decides, by 14 and
/// then 18; no bank of theirs gets 4. 9, 13, 1, 2 and 3 come before, 4 to 8 and 15 after.
#[test]
fn k_fields_so_far() {
    let mut random = Random::new(107);
    let mut numbers = BTreeSet::new();
    for _ in 0..rounds(3000) {
        let graph = graph(&mut random, 5);
        let memory = memory_of(&mut random, &graph);
        let field = |random: &mut Random| match random.below(8) {
            0..=3 => Field::Rank {
                bank: *random.pick(&[0, 4, 5, 65_535]),
                rank: *random.pick(&[0, 1, 9998, 9999]),
            },
            4 if random.one_in(3) => Field::Rank {
                bank: random.below(6) as u16,
                rank: *random.pick(&[10_000, 65_535]),
            },
            _ => Field::Edit(entry(*random.pick(&[Edit::Add, Edit::Strike]), 9, 9)),
        };
        let fields: Vec<Field> = (0..random.below(5)).map(|_| field(&mut random)).collect();
        let form = *random.pick(&FORMS);
        let size = form.entry_bytes();
        let mut journal = journal_of(form, random.below(2000) as u16, &fields);
        if random.one_in(8) {
            let left = random.between(1, size - 1);
            let field = field_bytes(
                form,
                fields.len() as u32 + 1,
                Field::Rank { bank: 1, rank: 1 },
            );
            journal.extend(&field[..left]);
        }
        let mut begun = false;
        let wanted = fields.iter().find_map(|field| match field {
            Field::Edit(_) => {
                begun = true;
                None
            }
            Field::Rank { rank, .. } if *rank > 9999 => Some(14),
            Field::Rank { .. } => begun.then_some(18),
        });
        let whole = (journal.len() - 5) % size == 0;
        let wanted = wanted.or(if whole { None } else { Some(14) });
        let add = any_entry(&mut random, &memory);
        let slice = with_spare(&mut random, &journal, 11);
        let mut pair = Pair::new(memory, random.draw());
        let number = pair.call(&Call::Record(add, slice, journal.len())).number;
        match wanted {
            Some(wanted) => assert_eq!(number, wanted, "{fields:?}"),
            None => assert!(![14, 18].contains(&number), "{fields:?}"),
        }
        numbers.insert(number);
    }
    if !quick() {
        for number in [0, 4, 5, 14, 18] {
            assert!(numbers.contains(&number), "no {number}");
        }
    }
}

/// Recording into journals with a wrong byte anywhere, and on memory that holds no plan or is too
/// short: the first no wins.
#[test]
fn damaged_journals_and_memory() {
    let mut random = Random::new(106);
    let mut numbers = BTreeSet::new();
    for _ in 0..rounds(400) {
        let form = *random.pick(&FORMS);
        let (mut slice, mut memory) = recorded(&mut random, form, 12, 20);
        let length = slice.len();
        slice = with_spare(&mut random, &slice, 22);
        let add = any_entry(&mut random, &memory);
        if random.one_in(2) {
            random.pick(&DAMAGES)(&mut random, &mut memory);
        }
        if random.one_in(4) {
            memory.trail.truncate(11);
        }
        if random.one_in(4) {
            memory.tally.banks = 1025;
        }
        if random.one_in(2) {
            let place = random.below(length.min(20));
            slice[place] = *random.pick(&[0, 1, 2, 4, 8, 0x2B, 0x2D, 0x4B, 0x4E, 255]);
        }
        let length = length - if random.one_in(4) { random.below(5) } else { 0 };
        let mut pair = Pair::new(memory, random.draw());
        numbers.insert(pair.call(&Call::StartJournal(slice.clone())).number);
        numbers.insert(pair.call(&Call::Record(add, slice, length)).number);
    }
    if !quick() {
        for number in [0, 1, 2, 3, 4, 5, 13, 14, 21] {
            assert!(numbers.contains(&number), "no {number}");
        }
    }
}
