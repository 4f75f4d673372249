//! Edit numbers in journals: numbers that are not the next, journals of two lengths, the order of the
//! questions, and the form in which recording goes on.

use crate::journal::{add, left_over, record_refused, refused_later, replay, sample, strike};
use crate::support::opened;
use independent::journal::{field_bytes, fields_of, journal_of, Field, Form, ReplayAnswer, FORMS};
use independent::journals::{drawn_fields, wrong_number};
use independent::memory::Memory;
use independent::random::Random;

/// The number of each field of a numbered journal, in turn.
fn numbers(journal: &[u8]) -> Vec<u32> {
    let number = |field: &[u8]| u32::from_le_bytes(field[3..7].try_into().unwrap());
    journal[5..].chunks_exact(11).map(number).collect()
}

/// The numbered journal of the samples with other numbers.
fn with_numbers(numbers: [u32; 3]) -> Vec<u8> {
    let fields = [add(1, 3), add(2, 0), strike(3, 1)];
    let fields = numbers.into_iter().zip(fields);
    let bytes = fields.flat_map(|(number, field)| field_bytes(Form::Numbered, number, field));
    let first = sample(Form::Numbered).0[..5].iter().copied();
    first.chain(bytes).collect()
}

/// 21 at the first field whose number is not one above the last, the first one being 1.
#[test]
fn numbers_that_are_not_the_next() {
    assert_eq!(with_numbers([1, 2, 3]), sample(Form::Numbered).0);
    for (numbers, field) in [
        ([0, 1, 2], 2),
        ([2, 3, 4], 2),
        ([256, 2, 3], 2),
        ([65_536, 2, 3], 2),
        ([65_537, 2, 3], 2),
        ([1 << 24, 2, 3], 2),
        ([u32::MAX, 0, 1], 2),
        ([1, 1, 2], 3),
        ([1, 3, 2], 3),
        ([1, 0, 3], 3),
        ([1, 2 + 65_536, 3], 3),
        ([1, 2 << 24, 3], 3),
        ([1, 2, 2], 4),
        ([1, 2, 4], 4),
        ([1, 2, 0], 4),
        ([1, 2, 3 | 1 << 31], 4),
    ] {
        let before = 5 + 11 * (field - 2);
        refused_later(&with_numbers(numbers), 21, field, before);
    }
}

/// Each number from 0 to beyond 16 bits, and those with a high byte, as the second field's.
#[test]
fn each_second_number() {
    let low = 0..70_000u32;
    let high = (0..32).map(|bit| 2 ^ 1 << bit);
    for number in low.chain(high).filter(|&number| number != 2) {
        let journal = with_numbers([1, number, 3]);
        let answer = Memory::filled(4, 0).replay(&journal);
        assert_eq!((answer.number, answer.field, answer.left), (21, 3, 0));
    }
}

/// A journal has one length, that of its first entry: another one gets 14, its value short or not, and
/// whatever its number.
#[test]
fn journals_of_two_lengths() {
    for (form, other) in [(Form::Plain, Form::Numbered), (Form::Numbered, Form::Plain)] {
        let (journal, end) = sample(form);
        for place in 1..=3 {
            for number in [place as u32 + 1, 1, 0, 7] {
                let field = field_bytes(other, number, add(0, 3));
                for length in 3..=field.len() {
                    let front = &journal[..end(place)];
                    let short = [front, &field[..length]].concat();
                    refused_later(&short, 14, place + 2, end(place));
                    let more = [front, &field, &journal[end(place)..]].concat();
                    refused_later(&more, 14, place + 2, end(place));
                }
                left_over(&[&journal[..end(place)], &field[..2]].concat(), 2);
            }
        }
        let plan = opened(4, &[]);
        let mixed = [&journal[..end(1)], &field_bytes(other, 2, add(0, 3))].concat();
        let slice = [&mixed[..], &[0; 20]].concat();
        record_refused(&plan, add(0, 1), &slice, mixed.len(), 14);
    }
}

/// By 14, then 21, then 18, then 4 to 8.
#[test]
fn the_first_no_of_a_field() {
    let rank = |bank, rank| Field::Rank { bank, rank };
    let front = sample(Form::Numbered).0[..16].to_vec();
    for (number, field, refusal) in [
        (2, rank(0, 10_000), 14),
        (3, rank(0, 10_000), 14),
        (3, rank(9, 10_000), 14),
        (3, rank(0, 1), 21),
        (1, rank(9, 1), 21),
        (2, rank(0, 1), 18),
        (2, rank(9, 1), 18),
        (3, add(9, 9).into(), 21),
        (0, add(2, 2).into(), 21),
        (2, add(9, 9).into(), 4),
        (2, add(2, 2).into(), 5),
        (2, add(3, 1).into(), 6),
        (2, strike(0, 1).into(), 7),
    ] {
        let field = field_bytes(Form::Numbered, number, field);
        let journal = [&front[..], &field].concat();
        refused_later(&journal, refusal, 3, 16);
        let mut slice = [&journal[..], &[0xAA; 11]].concat();
        let mut plan = opened(4, &[]);
        match refusal {
            14 | 21 | 18 => record_refused(&plan, add(9, 9), &slice, 27, refusal),
            _ => assert_eq!(plan.record(add(1, 2), &mut slice, 27).length, 38),
        }
    }
    let early = field_bytes(Form::Numbered, 2, rank(0, 1));
    refused_later(&[&front[..5], &early].concat(), 21, 2, 5);
    let far = field_bytes(Form::Numbered, 1, rank(4, 1));
    refused_later(&[&front[..5], &far].concat(), 4, 2, 5);
}

/// Field by field: an 18 before a 21, a 21 before a 14 or a left-over.
#[test]
fn the_first_field_with_a_no() {
    let rank = Field::Rank { bank: 0, rank: 1 };
    let front = sample(Form::Numbered).0[..16].to_vec();
    let late = field_bytes(Form::Numbered, 2, rank);
    let wrong = field_bytes(Form::Numbered, 7, add(0, 2));
    let plan = opened(4, &[]);
    for (fields, refusal) in [
        ([&late[..], &wrong], 18),
        ([&wrong, &late], 21),
        ([&wrong, &[0x2B]], 21),
        ([&wrong, &[0x4E, 2, 0]], 21),
        ([&[0x4E, 2, 0, 0, 0, 0, 0, 0, 0, 0, 0], &wrong], 14),
    ] {
        let journal = [&front[..], fields[0], fields[1]].concat();
        refused_later(&journal, refusal, 3, 16);
        record_refused(&plan, add(9, 9), &journal, journal.len(), refusal);
    }
}

/// An edit recorded into a journal of either length has that length and the next number; into one
/// without entries it is numbered.
#[test]
fn recording_goes_on_in_the_form() {
    let entries = [add(1, 3), add(2, 0), strike(3, 1), add(0, 3)];
    for form in FORMS {
        for place in 0..entries.len() {
            let form = if place == 0 { Form::Numbered } else { form };
            let mut plan = opened(4, &[]);
            for entry in &entries[..place] {
                match entry.edit {
                    independent::reach::Edit::Add => plan.add(entry.a, entry.b),
                    independent::reach::Edit::Strike => plan.strike(entry.a, entry.b),
                };
            }
            let journal = journal_of(form, 4, &entries[..place]);
            let mut slice = [&journal[..], &[0xAA; 60]].concat();
            let mut length = journal.len();
            for &entry in &entries[place..] {
                let answer = plan.record(entry, &mut slice, length);
                assert_eq!(answer.length, length + form.entry_bytes());
                length = answer.length;
                let (answer, left) = replay(&slice[..length]);
                assert_eq!(answer, ReplayAnswer::default());
                assert_eq!(left.held_graph(), plan.held_graph());
            }
            assert_eq!(slice[..length], journal_of(form, 4, &entries));
            assert!(slice[length..].iter().all(|&byte| byte == 0xAA));
        }
    }
}

/// In a journal that our calls wrote, the edit with number i is the i-th entry.
#[test]
fn the_edit_with_number_i_is_the_ith_entry() {
    let mut random = Random::new(47);
    for _ in 0..40 {
        let n = random.between(2, 30);
        let fields = drawn_fields(&mut random, n, 8, 30);
        let mut plan = Memory::filled(30, 5);
        let journal = journal_of(Form::Plain, n as u16, &fields);
        assert_eq!(plan.replay(&journal).number, 0);
        let mut slice = vec![0; 2000];
        let mut length = plan.start_journal(&mut slice).length;
        for _ in 0..20 {
            let (a, b) = (random.below(n) as u16, random.below(n) as u16);
            let entry = if random.one_in(2) {
                add(a, b)
            } else {
                strike(a, b)
            };
            let answer = plan.record(entry, &mut slice, length);
            if answer.number == 0 {
                let place = (length - 5) / 11 + 1;
                let field = field_bytes(Form::Numbered, place as u32, entry);
                assert_eq!(slice[length..answer.length], field);
                length = answer.length;
            }
        }
        let count = (length - 5) / 11;
        let wanted: Vec<u32> = (1..=count as u32).collect();
        assert_eq!(numbers(&slice[..length]), wanted);
    }
}

/// One wrong number anywhere in a long journal, K fields among its entries.
#[test]
fn a_wrong_number_anywhere() {
    let mut random = Random::new(48);
    for _ in 0..300 {
        let n = random.between(2, 12);
        let fields = drawn_fields(&mut random, n, 8, 60);
        if fields.is_empty() {
            continue;
        }
        let mut journal = journal_of(Form::Numbered, n as u16, &fields);
        let place = random.below(fields.len());
        let number = wrong_number(&mut random, place as u32 + 1);
        let start = 5 + 11 * place;
        journal[start + 3..start + 7].copy_from_slice(&number.to_le_bytes());
        refused_later(&journal, 21, place + 2, start);
        assert_eq!(fields_of(Form::Numbered, &fields).len(), 11 * fields.len());
    }
}
