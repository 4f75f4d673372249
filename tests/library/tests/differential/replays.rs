//! Replays: every cell after the pass, whether it was accepted or refused, of random journals, cut
//! and damaged ones, and the list of the same edits.

use crate::call::{Answer, Call};
use crate::pair::Pair;
use crate::plans::{any_memory, slices, SLICES};
use crate::{quick, rounds};
use independent::journal::{field_bytes, journal_of, Entry, Field, Form, FORMS};
use independent::journals::{drawn_entries, drawn_fields, random_journal, same_list, wrong_number};
use independent::random::Random;
use independent::reach::Edit;
use std::collections::BTreeSet;

/// Replays the journal into memory of any content, as a rule with room for its banks.
fn replay(random: &mut Random, journal: &[u8]) -> Answer {
    let n = match journal {
        [_, _, _, low, high, ..] => usize::from(u16::from_le_bytes([*low, *high])),
        _ => 4,
    };
    let n = if n > 1024 { 4 } else { n };
    let mut memory = any_memory(random, n);
    if random.one_in(12) && n > 0 {
        let slice = random.below(SLICES);
        slices(&mut memory)[slice].truncate(n - 1);
    }
    Pair::new(memory, random.draw()).call(&Call::Replay(journal.to_vec()))
}

#[test]
fn random_journals() {
    let mut random = Random::new(111);
    let mut numbers = BTreeSet::new();
    for _ in 0..rounds(2000) {
        let journal = random_journal(&mut random);
        numbers.insert(replay(&mut random, &journal).number);
    }
    if !quick() {
        assert_eq!(
            numbers,
            BTreeSet::from([0, 1, 2, 4, 5, 6, 7, 8, 13, 14, 18, 21])
        );
    }
}

/// Before the end of the first field 13; after it the whole fields, and the bytes left over.
#[test]
fn journals_cut_at_each_byte() {
    let mut random = Random::new(112);
    for round in 0..rounds(8) {
        let form = FORMS[round % 2];
        let n = random.between(2, 30);
        let fields = drawn_fields(&mut random, n, 10, 40);
        let journal = journal_of(form, n as u16, &fields);
        for length in 0..=journal.len() {
            let mut pair = Pair::new(any_memory(&mut random, n), random.draw());
            let answer = pair.call(&Call::Replay(journal[..length].to_vec()));
            let wanted = match length.checked_sub(5) {
                None => (13, vec![1, 0]),
                Some(after) => (0, vec![0, after % form.entry_bytes()]),
            };
            assert_eq!((answer.number, answer.results), wanted);
        }
    }
}

/// Each tag but the right ones and each length but the right one, of the first field and of a later
/// one, the value whole, short, or with bytes after it. Of the first entry both lengths are right.
#[test]
fn each_wrong_tag_and_length() {
    let mut random = Random::new(113);
    let entries = drawn_entries(&mut random, 3, 3, 4);
    let memory = any_memory(&mut random, 3);
    let mut refused = |before: &[u8], head: &[u8], value: &[u8], wanted: (u16, usize)| {
        let mut pair = Pair::new(memory.clone(), random.draw());
        let answer = pair.call(&Call::Replay([before, head, value].concat()));
        let (number, field) = wanted;
        assert_eq!((answer.number, answer.results), (number, vec![field, 0]));
    };
    let step = if quick() { 1000 } else { 1 };
    let later = (14, entries.len() + 2);
    let first = journal_of::<Field>(Form::Plain, 3, &[]);
    for value in [&[][..], &[1], &[1, 0, 2, 0], &[1, 0, 2, 0, 0x2B, 4, 0, 0]] {
        for tag in 0..=255 {
            if tag != 0x4E {
                refused(&[], &[tag, 2, 0], value, (13, 1));
            }
        }
        for length in (0..=65_535u16).step_by(step) {
            let [low, high] = length.to_le_bytes();
            if length != 2 {
                refused(&[], &[0x4E, low, high], value, (13, 1));
            }
            if length != 4 && length != 8 {
                refused(&first, &[0x2B, low, high], value, (14, 2));
            }
        }
        for form in FORMS {
            let whole = journal_of(form, 3, &entries);
            let right = form.value_bytes() as u8;
            for tag in (0..=255).filter(|tag| ![0x2B, 0x2D, 0x4B].contains(tag)) {
                refused(&whole, &[tag, right, 0], value, later);
            }
            for length in (0..=65_535u16).step_by(step).chain([4, 8]) {
                let [low, high] = length.to_le_bytes();
                if length != u16::from(right) {
                    for tag in [0x2B, 0x2D, 0x4B] {
                        refused(&whole, &[tag, low, high], value, later);
                    }
                }
            }
        }
    }
}

/// A field with each kind of wrong number, at each place, whole or cut: 21 after 14 and before 18 and
/// 4; cut, it is left over.
#[test]
fn wrong_numbers() {
    let mut random = Random::new(118);
    for _ in 0..rounds(400) {
        let n = random.between(2, 12);
        let fields = drawn_fields(&mut random, n, 8, 20);
        let journal = journal_of(Form::Numbered, n as u16, &fields);
        let place = random.below(fields.len() + 1);
        let number = wrong_number(&mut random, place as u32 + 1);
        let any = random.below(2 * n) as u16;
        let (bank, rank) = (any, *random.pick(&[0, 9999, 10_000]));
        let next = match fields.get(place) {
            Some(&field) if random.one_in(2) => field,
            _ => Field::Rank { bank, rank },
        };
        let refusal = match next {
            Field::Rank { rank: 10_000.., .. } => 14,
            _ => 21,
        };
        let field = field_bytes(Form::Numbered, number, next);
        let front = 5 + 11 * place;
        let memory = any_memory(&mut random, n);
        for (length, wanted) in [
            (11, (refusal, vec![place + 2, 0])),
            (10, (0, vec![0, 10])),
            (7, (0, vec![0, 7])),
            (3, (0, vec![0, 3])),
        ] {
            let mut bytes = [&journal[..front], &field[..length]].concat();
            if length == 11 {
                bytes.extend(&journal[front..]);
            }
            let mut pair = Pair::new(memory.clone(), random.draw());
            let answer = pair.call(&Call::Replay(bytes));
            assert_eq!((answer.number, answer.results), wanted);
        }
    }
}

/// A K field of each rank, of a bank that is there or not, before the first edit and after it, whole or
/// cut: 14, then 18, then 4.
#[test]
fn k_fields_of_every_rank_and_place() {
    let mut random = Random::new(117);
    let edit = |edit| Entry { edit, a: 0, b: 1 };
    let (add, strike) = (edit(Edit::Add), edit(Edit::Strike));
    let rank = Field::Rank { bank: 2, rank: 7 };
    let before: [&[Field]; 4] = [
        &[],
        &[rank, rank],
        &[Field::Edit(add)],
        &[rank, Field::Edit(add), Field::Edit(strike)],
    ];
    let memory = any_memory(&mut random, 3);
    let mut replayed = |journal: &[u8]| {
        let mut pair = Pair::new(memory.clone(), random.draw());
        let answer = pair.call(&Call::Replay(journal.to_vec()));
        (answer.number, answer.results)
    };
    let edges = [0, 1, 255, 256, 9998, 9999, 10_000, 10_001, 16_384, 65_535];
    let step = if quick() { 4000 } else { 37 };
    for rank in (0..=65_535).step_by(step).chain(edges) {
        for (place, fields) in before.iter().enumerate() {
            let form = FORMS[usize::from(rank / 37 % 2)];
            let front = journal_of(form, 3, fields);
            for bank in [2, 3] {
                let next = fields.len() as u32 + 1;
                let field = field_bytes(form, next, Field::Rank { bank, rank });
                let number = match (rank, place, bank) {
                    (10_000.., _, _) => 14,
                    (_, 2 | 3, _) => 18,
                    (_, _, 3) => 4,
                    _ => 0,
                };
                let place = if number == 0 { 0 } else { fields.len() + 2 };
                let whole = [&front[..], &field].concat();
                assert_eq!(replayed(&whole), (number, vec![place, 0]));
                let short = 3 + usize::from(rank) % form.value_bytes();
                let cut = [&front[..], &field[..short]].concat();
                assert_eq!(replayed(&cut), (0, vec![0, short]));
            }
        }
    }
}

/// Bank counts around 1,024 and around the room for them.
#[test]
fn bank_counts() {
    let mut random = Random::new(114);
    for n in [0, 1, 5, 6, 255, 256, 1023, 1024, 1025, 1280, 65_535] {
        for room in [5, 1024] {
            let mut pair = Pair::new(any_memory(&mut random, room), random.draw());
            let answer = pair.call(&Call::Replay(journal_of::<Field>(Form::Plain, n, &[])));
            let fits = pair.model.all_fit(n.into());
            let wanted = match n {
                1025.. => (1, vec![1, 0]),
                _ if !fits => (2, vec![1, 0]),
                _ => (0, vec![0, 0]),
            };
            assert_eq!((answer.number, answer.results), wanted, "{n} banks");
        }
    }
}

/// The same ranks and edits by a journal and by a list leave the same, cell by cell.
#[test]
fn the_list_of_the_same_edits() {
    let mut random = Random::new(115);
    for _ in 0..rounds(80) {
        let n = random.between(2, 60);
        let draws = random.below(300);
        let fields = drawn_fields(&mut random, n, 20, draws);
        let memory = any_memory(&mut random, n);
        let mut by_journal = Pair::new(memory.clone(), random.draw());
        let mut by_list = Pair::new(memory, random.draw());
        let journal = journal_of(*random.pick(&FORMS), n as u16, &fields);
        let list = same_list(n as u16, &fields);
        assert_eq!(by_journal.call(&Call::Replay(journal)).number, 0);
        assert_eq!(by_list.call(&Call::ReadList(list)).number, 0);
        assert!(by_journal.model == by_list.model);
    }
}

/// 8,570 edits and 5 bytes of the next fill 60,000 bytes; where they are numbered, 5,454 and one byte.
/// One byte more gets 9, and so does any longer slice.
#[test]
fn long_journals() {
    let mut random = Random::new(116);
    let entries = drawn_entries(&mut random, 9, 9, 40_000);
    for (form, fields, left) in [(Form::Plain, 8571, 5), (Form::Numbered, 5455, 1)] {
        let fields = if quick() { 100 } else { fields };
        let mut journal = journal_of(form, 9, &entries[..fields]);
        if !quick() {
            journal.truncate(60_000);
            let mut pair = Pair::new(any_memory(&mut random, 9), random.draw());
            let answer = pair.call(&Call::Replay(journal.clone()));
            assert_eq!((answer.number, answer.results), (0, vec![0, left]));
        }
        for length in [60_001, 60_002, 65_536, 131_077] {
            journal.resize(length, 0);
            let answer = replay(&mut random, &journal);
            assert_eq!((answer.number, answer.results), (9, vec![0, 0]));
        }
    }
}
