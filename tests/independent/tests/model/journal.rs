//! Journals: their bytes, what starting, recording and replaying answer, the numbers and fields of
//! refusals, and what memory holds afterwards.

use crate::support::{any_graph, memory_of, opened};
use independent::graph::Graph;
use independent::journal::{
    field_bytes, journal_of, Entry, Field, Form, RecordAnswer, ReplayAnswer, FORMS,
};
use independent::journals::{
    drawn_entries, drawn_fields, drawn_rank_fields, random_journal, same_list,
};
use independent::memory::Memory;
use independent::random::Random;
use independent::reach::Edit;
use std::collections::BTreeSet;

/// Four banks, 1 and 3 added, 2 and 0 added, 3 and 1 struck.
const PLAIN: [u8; 26] = [
    0x4E, 2, 0, 4, 0, 0x2B, 4, 0, 1, 0, 3, 0, 0x2B, 4, 0, 2, 0, 0, 0, 0x2D, 4, 0, 3, 0, 1, 0,
];

/// The same, numbered.
const NUMBERED: [u8; 38] = [
    0x4E, 2, 0, 4, 0, 0x2B, 8, 0, 1, 0, 0, 0, 1, 0, 3, 0, 0x2B, 8, 0, 2, 0, 0, 0, 2, 0, 0, 0, 0x2D,
    8, 0, 3, 0, 0, 0, 3, 0, 1, 0,
];

/// The same in a form, and where its fields end.
pub fn sample(form: Form) -> (&'static [u8], impl Fn(usize) -> usize) {
    let journal = match form {
        Form::Plain => &PLAIN[..],
        Form::Numbered => &NUMBERED,
    };
    (journal, move |fields| 5 + fields * form.entry_bytes())
}

pub fn add(a: u16, b: u16) -> Entry {
    let edit = Edit::Add;
    Entry { edit, a, b }
}

pub fn strike(a: u16, b: u16) -> Entry {
    let edit = Edit::Strike;
    Entry { edit, a, b }
}

/// Replays a journal with memory for 30 banks.
pub fn replay(journal: &[u8]) -> (ReplayAnswer, Memory) {
    let mut memory = Memory::filled(30, 999);
    let answer = memory.replay(journal);
    (answer, memory)
}

/// A journal that is answered so, and leaves what its front of so many bytes leaves.
fn replays(journal: &[u8], wanted: ReplayAnswer, front: usize) {
    let (answer, memory) = replay(journal);
    assert_eq!(answer, wanted, "{journal:?}");
    let (whole, left) = replay(&journal[..front]);
    assert_eq!(whole, ReplayAnswer::default());
    assert_eq!(memory, left, "{journal:?}");
}

/// A journal that replays with so many bytes left over.
pub fn left_over(journal: &[u8], left: usize) {
    let (number, field) = (0, 0);
    let answer = ReplayAnswer {
        number,
        field,
        left,
    };
    replays(journal, answer, journal.len() - left);
}

/// A journal that is refused at a later field, after so many bytes.
pub fn refused_later(journal: &[u8], number: u16, field: usize, before: usize) {
    let left = 0;
    replays(
        journal,
        ReplayAnswer {
            number,
            field,
            left,
        },
        before,
    );
}

/// A journal that is refused at the first field or before, and so changes nothing.
fn refused_at_once(journal: &[u8], number: u16, field: usize) {
    let (answer, memory) = replay(journal);
    let left = 0;
    assert_eq!(
        answer,
        ReplayAnswer {
            number,
            field,
            left
        }
    );
    assert_eq!(memory, Memory::filled(30, 999));
}

/// An edit that is refused with the number and changes neither memory nor the journal.
pub fn record_refused(memory: &Memory, entry: Entry, journal: &[u8], length: usize, number: u16) {
    let mut after = memory.clone();
    let mut bytes = journal.to_vec();
    let answer = after.record(entry, &mut bytes, length);
    let wanted = RecordAnswer {
        number,
        ..RecordAnswer::default()
    };
    assert_eq!(answer, wanted, "{entry:?}, length {length}");
    assert_eq!(after, *memory);
    assert_eq!(bytes, journal);
}

#[test]
fn the_bytes_of_a_journal() {
    let entries = [add(1, 3), add(2, 0), strike(3, 1)];
    for form in FORMS {
        assert_eq!(journal_of(form, 4, &entries), sample(form).0);
    }
    let wide = |form| journal_of(form, 1024, &[strike(300, 1023)]);
    let plain = [0x4E, 2, 0, 0, 4, 0x2D, 4, 0, 44, 1, 255, 3];
    let numbered = [0x4E, 2, 0, 0, 4, 0x2D, 8, 0, 1, 0, 0, 0, 44, 1, 255, 3];
    assert_eq!(wide(Form::Plain), plain);
    assert_eq!(wide(Form::Numbered), numbered);
    let late = field_bytes(Form::Numbered, 0x0403_0201, add(5, 6));
    assert_eq!(late, [0x2B, 8, 0, 1, 2, 3, 4, 5, 0, 6, 0]);
}

/// 300 is the bytes 44 and 1, the low one first.
#[test]
fn a_journal_and_the_list_of_the_same_edits() {
    let entries = [add(300, 1), strike(1, 300)];
    let fields = [0x2B, 4, 0, 44, 1, 1, 0, 0x2D, 4, 0, 1, 0, 44, 1];
    assert_eq!(journal_of(Form::Plain, 1024, &entries)[5..], fields);
    assert_eq!(same_list(1024, &entries), b"N 1024\n+ 300 1\n- 1 300");
}

#[test]
fn a_new_journal_lists_the_lowest_pair_first() {
    let memory = opened(4, &[(3, 1), (2, 0), (0, 1)]);
    let mut slice = [0xAA; 42];
    let answer = memory.start_journal(&mut slice);
    assert_eq!((answer.number, answer.length), (0, 38));
    let wanted = journal_of(Form::Numbered, 4, &[add(0, 1), add(0, 2), add(1, 3)]);
    assert_eq!(slice[..38], wanted);
    assert_eq!(slice[38..], [0xAA; 4]);
}

#[test]
fn recording_writes_after_the_last_field() {
    let mut memory = opened(4, &[]);
    let mut slice = [0xAA; 42];
    let mut length = memory.start_journal(&mut slice).length;
    for entry in [add(1, 3), add(2, 0), strike(3, 1)] {
        let mut beside = memory.clone();
        let edit = match entry.edit {
            Edit::Add => beside.add(entry.a, entry.b),
            Edit::Strike => beside.strike(entry.a, entry.b),
        };
        let answer = memory.record(entry, &mut slice, length);
        assert_eq!((answer.number, answer.length), (0, length + 11));
        assert_eq!((answer.moved, answer.trail), (edit.moved, edit.trail));
        assert_eq!(memory, beside);
        length = answer.length;
    }
    assert_eq!(slice[..38], NUMBERED);
    assert_eq!(slice[38..], [0xAA; 4]);
}

#[test]
fn a_replay_does_what_its_calls_do() {
    let mut by_calls = Memory::filled(30, 999);
    by_calls.open(4);
    by_calls.add(1, 3);
    by_calls.add(2, 0);
    by_calls.strike(3, 1);
    for form in FORMS {
        let (answer, by_replay) = replay(sample(form).0);
        assert_eq!(answer, ReplayAnswer::default());
        assert_eq!(by_replay, by_calls);
    }
    let (_, none) = replay(&PLAIN[..5]);
    assert_eq!(none.trail, [999; 30]);
    assert_eq!(none.moved, [999; 30]);
}

#[test]
fn a_journal_cut_at_each_byte() {
    for form in FORMS {
        let (journal, _) = sample(form);
        for length in 0..=journal.len() {
            match length.checked_sub(5) {
                None => refused_at_once(&journal[..length], 13, 1),
                Some(after) => left_over(&journal[..length], after % form.entry_bytes()),
            }
        }
    }
}

#[test]
fn wrong_first_fields() {
    let first = |bytes: [u8; 3], value: &[u8]| [&bytes[..], value].concat();
    for tag in (0..=255).filter(|&tag| tag != 0x4E) {
        refused_at_once(&first([tag, 2, 0], &[4, 0]), 13, 1);
    }
    for length in (0..=65_535u16).filter(|&length| length != 2) {
        let [low, high] = length.to_le_bytes();
        refused_at_once(&first([0x4E, low, high], &[4, 0, 0, 0]), 13, 1);
    }
    refused_at_once(&first([0x4E, 2, 0], &[31, 0]), 2, 1);
    refused_at_once(&first([0x4E, 2, 0], &[1, 4]), 1, 1);
    refused_at_once(&first([0x4E, 2, 0], &[255, 255]), 1, 1);
}

#[test]
fn wrong_tags_and_lengths_of_later_fields() {
    for form in FORMS {
        let (journal, end) = sample(form);
        let right = form.value_bytes() as u8;
        for value in [
            &[][..],
            &[1],
            &[1, 0, 2, 0],
            &[1, 0, 2, 0, 0x2B, 4, 0, 0, 9],
        ] {
            for tag in (0..=255).filter(|tag| ![0x2B, 0x2D, 0x4B].contains(tag)) {
                let wrong = [journal, &[tag, right, 0], value].concat();
                refused_later(&wrong, 14, 5, end(3));
            }
            let lengths = (0..=65_535u16).filter(|&length| length != right.into());
            for length in lengths.filter(|length| *length < 20 || length % 3 == 0) {
                let [low, high] = length.to_le_bytes();
                for tag in [0x2B, 0x2D, 0x4B] {
                    let wrong = [&journal[..end(1)], &[tag, low, high], value].concat();
                    refused_later(&wrong, 14, 3, end(1));
                }
            }
        }
        let first_again = [&journal[..end(1)], &journal[..5]].concat();
        refused_later(&first_again, 14, 3, end(1));
    }
}

/// Of the first entry both lengths are right, and no others.
#[test]
fn lengths_of_the_first_entry() {
    for length in (0..=65_535u16).filter(|&length| length != 4 && length != 8) {
        let [low, high] = length.to_le_bytes();
        let wrong = [&PLAIN[..5], &[0x2B, low, high, 1, 0, 2, 0]].concat();
        refused_later(&wrong, 14, 2, 5);
    }
}

#[test]
fn fewer_than_three_bytes_or_a_short_value_are_left_over() {
    for form in FORMS {
        let (journal, end) = sample(form);
        let right = form.value_bytes() as u8;
        let short = &vec![9; form.value_bytes() - 1][..];
        let edit = &[&[0x2D, right, 0], short].concat()[..];
        let rank = &[&[0x4B, right, 0], short].concat()[..];
        for left in [
            &[0x4E][..],
            &[0, 0],
            &[0x2B, 9],
            &[0x2B, right, 0],
            &[0x4B, right, 0],
            &[0x4B, 12 - right],
            edit,
            rank,
        ] {
            for front in [journal, &journal[..end(0)]] {
                left_over(&[front, left].concat(), left.len());
            }
        }
    }
}

#[test]
fn numbers_and_fields_of_later_fields() {
    let refused = |entry: Entry, number| {
        for form in FORMS {
            let (journal, end) = sample(form);
            let field = field_bytes(form, 2, entry);
            let journal = [&journal[..end(1)], &field, &journal[end(1)..end(2)]].concat();
            refused_later(&journal, number, 3, end(1));
        }
    };
    refused(add(4, 0), 4);
    refused(add(0, 65_535), 4);
    refused(strike(9, 9), 4);
    refused(add(2, 2), 5);
    refused(strike(2, 2), 5);
    refused(add(1, 3), 6);
    refused(add(3, 1), 6);
    refused(strike(1, 2), 7);
    let mut star: Vec<Entry> = (1..24).map(|q| add(q, 0)).collect();
    star.push(add(24, 0));
    for form in FORMS {
        let journal = journal_of(form, 30, &star);
        refused_later(&journal, 8, 25, journal.len() - form.entry_bytes());
    }
}

#[test]
fn the_first_no_of_a_recorded_edit_wins() {
    let plan = opened(4, &[(0, 1)]);
    let mut too_many = plan.clone();
    too_many.tally.banks = 2000;
    let mut short = plan.clone();
    short.trail.pop();
    let mut no_plan = plan.clone();
    no_plan.waves[0] += 1;
    for form in FORMS {
        let journal = journal_of(form, 4, &[add(0, 1)]);
        let (end, size) = (journal.len(), form.entry_bytes());
        let spare = [&journal[..], &vec![0xAA; size + 2]].concat();
        for memory in [&plan, &too_many, &short, &no_plan] {
            record_refused(memory, add(0, 9), &spare, 60_001, 9);
            record_refused(memory, add(0, 9), &vec![0; 70_000], 60_001, 9);
            record_refused(memory, add(0, 9), &spare, usize::MAX, 9);
            record_refused(memory, add(0, 9), &spare, 60_000, 13);
            record_refused(memory, add(0, 9), &spare, spare.len() + 1, 13);
            record_refused(memory, add(0, 9), &spare, 4, 13);
            record_refused(memory, add(0, 9), &[], 0, 13);
            record_refused(memory, add(0, 9), &[&[0x2B], &spare[1..]].concat(), end, 13);
        }
        for (memory, number) in [(&too_many, 1), (&short, 2), (&no_plan, 3), (&plan, 14)] {
            for length in [6, 8, end - 1, end + 1, end + 2, end + 3, end + size + 2] {
                record_refused(memory, add(0, 9), &spare, length, number);
            }
        }
        record_refused(&plan, add(0, 9), &journal, end, 4);
        record_refused(&plan, strike(2, 2), &journal, end, 5);
        record_refused(&plan, add(1, 0), &journal, end, 6);
        record_refused(&plan, strike(1, 2), &journal, end, 7);
        record_refused(&plan, add(1, 2), &journal, end, 15);
        record_refused(&plan, add(1, 2), &spare[..end + size - 1], end, 15);
        let mut slice = spare[..end + size].to_vec();
        assert_eq!(
            plan.clone().record(add(1, 2), &mut slice, end).length,
            end + size
        );
    }
    record_refused(&plan, add(1, 2), &NUMBERED[..15], 5, 15);
    assert_eq!(
        plan.clone()
            .record(add(1, 2), &mut NUMBERED[..16].to_vec(), 5)
            .length,
        16
    );
}

/// The fields are read without their edits, whatever n they name.
#[test]
fn recording_makes_no_edit_of_the_journal() {
    let strays = [add(9, 9), add(0, 1), add(0, 1), strike(2, 3)];
    for form in FORMS {
        let old = journal_of(form, 5000, &strays);
        let size = old.len() + form.entry_bytes();
        let mut journal = old.clone();
        journal.resize(size, 0);
        let mut memory = opened(3, &[]);
        let answer = memory.record(add(2, 1), &mut journal, old.len());
        assert_eq!((answer.number, answer.length), (0, size));
        assert_eq!(memory.held_graph(), Some(Graph::of(3, [(1, 2)])));
        let new = field_bytes(form, 5, add(2, 1));
        assert_eq!(journal, [old, new].concat());
    }
}

#[test]
fn questions_of_starting() {
    let plan = opened(4, &[(0, 1)]);
    let refused = |memory: &Memory, space: usize, number: u16| {
        let mut slice = vec![0xAA; space];
        let answer = memory.start_journal(&mut slice);
        assert_eq!((answer.number, answer.length), (number, 0));
        assert!(slice.iter().all(|&byte| byte == 0xAA));
    };
    refused(&plan, 15, 15);
    refused(&plan, 0, 15);
    for space in [0, 100] {
        let mut memory = plan.clone();
        memory.counts[95] = 1;
        refused(&memory, space, 3);
        memory.counts.pop();
        refused(&memory, space, 2);
        memory.tally.banks = 1025;
        refused(&memory, space, 1);
    }
    let mut short_trail = plan;
    short_trail.trail.clear();
    assert_eq!(short_trail.start_journal(&mut [0; 16]).length, 16);
}

/// The first clashes of blocks of 24 banks, as many as given.
pub fn crowded(clashes: usize) -> Graph {
    let blocks = (0..1024).flat_map(|b| (b - b % 24..b).map(move |q| (q, b)));
    Graph::of(1024, blocks.take(clashes))
}

#[test]
fn journals_end_at_60_000_bytes() {
    let mut slice = vec![0; 100_000];
    let mut most = memory_of(&crowded(5454), 0);
    assert_eq!(most.start_journal(&mut slice).length, 59_999);
    record_refused(&most, strike(0, 1), &slice, 59_999, 15);
    assert_eq!(most.replay(&slice[..60_000]).left, 1);
    assert_eq!(most.replay(&slice[..60_001]).number, 9);
    let more = memory_of(&crowded(5455), 0);
    assert_eq!(more.start_journal(&mut slice).number, 15);
    let mut next = memory_of(&crowded(5453), 0);
    let length = next.start_journal(&mut slice).length;
    let recorded = next.record(add(1000, 999), &mut slice, length);
    assert_eq!(recorded.length, 59_999);
    let turns = [add(0, 1), strike(0, 1)].into_iter().cycle();
    let turns: Vec<Entry> = turns.take(8570).collect();
    let plain = journal_of(Form::Plain, 4, &turns);
    assert_eq!(plain.len(), 59_995);
    slice[..59_995].copy_from_slice(&plain);
    record_refused(&opened(4, &[]), add(0, 1), &slice, 59_995, 15);
    assert_eq!(next.replay(&slice[..60_000]).number, 14, "0 is no tag");
    let last = opened(4, &[(0, 1)]).record(strike(0, 1), &mut slice, 59_988);
    assert_eq!(last.length, 59_995);
}

#[test]
fn a_new_journal_replays_to_the_plan() {
    let mut random = Random::new(43);
    for _ in 0..60 {
        let graph = any_graph(&mut random, 60);
        let mut slice = vec![0; 60_000];
        let length = memory_of(&graph, 2).start_journal(&mut slice).length;
        let mut memory = Memory::filled(60, 1);
        assert_eq!(memory.replay(&slice[..length]), ReplayAnswer::default());
        assert_eq!(memory.held_graph(), Some(graph));
    }
}

/// From a new journal on, after each recorded edit the journal replays to the present plan.
#[test]
fn recorded_edits_replay_to_the_plan() {
    let mut random = Random::new(44);
    for _ in 0..20 {
        let n = random.between(2, 30);
        let entries = drawn_entries(&mut random, n, 8, 40);
        let (before, later) = entries.split_at(entries.len() / 2);
        let ranks = drawn_rank_fields(&mut random, n).into_iter();
        let before: Vec<Field> = ranks.chain(before.iter().map(|&e| e.into())).collect();
        let mut memory = Memory::filled(30, 5);
        let form = *random.pick(&FORMS);
        let journal = journal_of(form, n as u16, &before);
        assert_eq!(memory.replay(&journal).number, 0);
        let mut slice = vec![0; 1200];
        let mut length = if random.one_in(2) {
            memory.start_journal(&mut slice).length
        } else {
            slice[..journal.len()].copy_from_slice(&journal);
            journal.len()
        };
        for &entry in later {
            length = memory.record(entry, &mut slice, length).length;
            let (answer, replayed) = replay(&slice[..length]);
            assert_eq!(answer, ReplayAnswer::default());
            assert_eq!(replayed.held_graph(), memory.held_graph());
            assert!(memory.holds_plan());
        }
    }
}

#[test]
fn a_journal_and_its_list_leave_the_same() {
    let mut random = Random::new(45);
    for _ in 0..60 {
        let n = random.between(2, 30);
        let fields = drawn_fields(&mut random, n, 10, 150);
        let form = *random.pick(&FORMS);
        let (answer, by_replay) = replay(&journal_of(form, n as u16, &fields));
        let mut by_list = Memory::filled(30, 999);
        let read = by_list.read_list(&same_list(n as u16, &fields));
        assert_eq!((answer.number, read.number), (0, 0));
        assert_eq!(by_replay, by_list);
    }
}

/// Random journals must show left-over bytes and each refusal, or they would test little.
#[test]
fn random_journals_are_varied() {
    let mut random = Random::new(46);
    let mut numbers = BTreeSet::new();
    let (mut accepted, mut left) = (0, BTreeSet::new());
    for _ in 0..2000 {
        let mut memory = Memory::filled(1024, 0);
        memory.open(0);
        let answer = memory.replay(&random_journal(&mut random));
        numbers.insert(answer.number);
        accepted += usize::from(answer.number == 0);
        left.insert(answer.left);
        assert!(memory.holds_plan());
    }
    assert!((500..1500).contains(&accepted), "{accepted} accepted");
    assert_eq!(left, (0..11).collect());
    let all = [0, 1, 4, 5, 6, 7, 8, 13, 14, 18, 21];
    assert_eq!(numbers, BTreeSet::from(all));
}
