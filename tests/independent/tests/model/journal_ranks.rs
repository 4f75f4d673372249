//! Journals with ranks: the bytes of K fields, those of a new journal, K fields that are damaged or
//! come after an edit, and what recording asks of them.

use crate::journal::{add, crowded, left_over, record_refused, refused_later, replay, strike};
use crate::support::{memory_of, opened, opened_with};
use independent::journal::{field_bytes, journal_of, Entry, Field, Form, ReplayAnswer, FORMS};
use independent::journals::same_list;
use independent::memory::Memory;

fn rank(bank: u16, rank: u16) -> Field {
    Field::Rank { bank, rank }
}

fn edit(entry: Entry) -> Field {
    Field::Edit(entry)
}

/// Four banks, bank 3 of rank 9,999 and bank 1 of rank 300, then 1 and 3 added.
const RANKED: [u8; 26] = [
    0x4E, 2, 0, 4, 0, 0x4B, 4, 0, 3, 0, 15, 39, 0x4B, 4, 0, 1, 0, 44, 1, 0x2B, 4, 0, 1, 0, 3, 0,
];

/// The same in a form, and where its fields end.
fn ranked(form: Form) -> (Vec<u8>, impl Fn(usize) -> usize) {
    let fields = [rank(3, 9999), rank(1, 300), edit(add(1, 3))];
    let end = move |fields| 5 + fields * form.entry_bytes();
    (journal_of(form, 4, &fields), end)
}

#[test]
fn the_bytes_of_a_journal_with_ranks() {
    let fields = [rank(3, 9999), rank(1, 300), edit(add(1, 3))];
    assert_eq!(journal_of(Form::Plain, 4, &fields), RANKED);
    assert_eq!(same_list(4, &fields), b"N 4\nK 3 9999\nK 1 300\n+ 1 3");
}

#[test]
fn a_replay_with_ranks_does_what_its_calls_do() {
    let mut by_calls = Memory::filled(30, 999);
    by_calls.open(4);
    by_calls.ranks[..4].copy_from_slice(&[0, 300, 0, 9999]);
    by_calls.add(1, 3);
    for form in FORMS {
        let (answer, by_replay) = replay(&ranked(form).0);
        assert_eq!(answer, ReplayAnswer::default());
        assert_eq!(by_replay, by_calls);
    }
    let (_, ranks_alone) = replay(&RANKED[..19]);
    assert_eq!(ranks_alone.ranks[..5], [0, 300, 0, 9999, 999]);
    assert_eq!(ranks_alone.trail, [999; 30]);
    assert_eq!(ranks_alone.moved, [999; 30]);
    assert_eq!(ranks_alone.tally.clashes, 0);
}

#[test]
fn a_journal_with_ranks_cut_at_each_byte() {
    for form in FORMS {
        let (journal, _) = ranked(form);
        for length in 5..=journal.len() {
            left_over(&journal[..length], (length - 5) % form.entry_bytes());
        }
    }
}

/// The banks of rank other than 0, ascending, and then the adds.
#[test]
fn a_new_journal_has_its_ranks_first() {
    let memory = opened_with(&[7, 0, 9999, 1], &[(3, 1), (2, 0)]);
    let mut slice = [0xAA; 70];
    let answer = memory.start_journal(&mut slice);
    assert_eq!((answer.number, answer.length), (0, 60));
    let ranks = [rank(0, 7), rank(2, 9999), rank(3, 1)];
    let adds = [edit(add(0, 2)), edit(add(1, 3))];
    let all = [&ranks[..], &adds].concat();
    assert_eq!(slice[..60], journal_of(Form::Numbered, 4, &all));
    assert_eq!(slice[60..], [0xAA; 10]);
    let mut short = [0xAA; 59];
    assert_eq!(memory.start_journal(&mut short).number, 15);
    assert_eq!(short, [0xAA; 59]);
    let no_clash = opened_with(&[0, 5], &[]);
    assert_eq!(no_clash.start_journal(&mut slice).length, 16);
    assert_eq!(slice[..16], journal_of(Form::Numbered, 2, &[rank(1, 5)]));
}

/// The last rank of a bank counts.
#[test]
fn a_repeated_rank() {
    let fields = [rank(0, 1), rank(1, 5), rank(0, 9), rank(1, 5)];
    for form in FORMS {
        let (answer, memory) = replay(&journal_of(form, 2, &fields));
        assert_eq!(answer, ReplayAnswer::default());
        assert_eq!(memory.ranks[..2], [9, 5]);
    }
}

/// A whole value above 9,999 is 14 at its field. A short value is left over, whatever it starts with.
#[test]
fn ranks_above_9999() {
    for form in FORMS {
        let (journal, end) = ranked(form);
        let front = &journal[..end(1)];
        for wrong in [10_000, 10_001, 16_383, 32_767, 32_768, 65_535] {
            for bank in [0, 3, 4, 65_535] {
                let second = field_bytes(form, 2, rank(bank, wrong));
                let fourth = field_bytes(form, 4, rank(bank, wrong));
                refused_later(&[front, &second].concat(), 14, 3, end(1));
                refused_later(
                    &[front, &second, &journal[end(1)..]].concat(),
                    14,
                    3,
                    end(1),
                );
                refused_later(&[&journal[..], &fourth].concat(), 14, 5, end(3));
                for length in 3..form.entry_bytes() {
                    left_over(&[front, &second[..length]].concat(), length);
                    left_over(&[&journal[..], &fourth[..length]].concat(), length);
                }
            }
        }
        let most = [&journal[..5], &field_bytes(form, 1, rank(0, 9999))].concat();
        assert_eq!(replay(&most).1.ranks[0], 9999);
    }
}

/// 14, then 18, then 4.
#[test]
fn numbers_of_k_fields() {
    for form in FORMS {
        let (journal, end) = ranked(form);
        for bank in [4, 1024, 65_535] {
            let second = field_bytes(form, 2, rank(bank, 1));
            refused_later(&[&journal[..end(1)], &second].concat(), 4, 3, end(1));
        }
        for bank in [0, 3, 4, 65_535] {
            for first in [add(0, 2), strike(1, 3)] {
                let front = [&journal[..], &field_bytes(form, 4, first)].concat();
                let late = [&front[..], &field_bytes(form, 5, rank(bank, 9999))].concat();
                refused_later(&late, 18, 6, end(4));
                let next = field_bytes(form, 6, rank(0, 1));
                let more = [&late[..], &next, &[0; 9]].concat();
                refused_later(&more, 18, 6, end(4));
            }
        }
        let late = journal_of(form, 4, &[rank(0, 1), edit(add(0, 1)), rank(0, 1)]);
        refused_later(&late, 18, 4, end(2));
        let refused_before = journal_of(form, 4, &[edit(add(0, 0)), rank(0, 1)]);
        refused_later(&refused_before, 5, 2, 5);
    }
}

/// Each tag in the place of a K field's, and each of its lengths but the right one.
#[test]
fn damaged_k_fields() {
    for tag in (0..=255).filter(|tag| ![0x2B, 0x2D, 0x4B].contains(tag)) {
        let wrong = [&RANKED[..12], &[tag], &RANKED[13..]].concat();
        refused_later(&wrong, 14, 3, 12);
    }
    for length in (0..=65_535u16).filter(|&length| length != 4) {
        let [low, high] = length.to_le_bytes();
        let wrong = [&RANKED[..13], &[low, high], &RANKED[15..]].concat();
        refused_later(&wrong, 14, 3, 12);
    }
}

/// A journal of these fields, in each form, in which an edit is recorded: the number it gets. What is left
/// over starts with a tag and a length, if it has three bytes; 4 is the right length.
fn recorded(fields: &[Field], left_over: &[u8], number: u16) {
    for form in FORMS {
        let left_over: Vec<u8> = match left_over {
            [tag, 4, rest @ ..] => [&[*tag, form.value_bytes() as u8], rest].concat(),
            _ => left_over.to_vec(),
        };
        let journal = [journal_of(form, 4, fields), left_over].concat();
        let slice = [&journal[..], &[0xAA; 13]].concat();
        let plan = opened(4, &[(0, 1)]);
        if number != 0 {
            record_refused(&plan, add(1, 2), &slice, journal.len(), number);
            record_refused(&plan, add(9, 9), &slice, journal.len(), number);
            let mut no_plan = plan;
            no_plan.ranks[3] = 10_000;
            record_refused(&no_plan, add(1, 2), &slice, journal.len(), 3);
            continue;
        }
        let mut bytes = slice.clone();
        let answer = plan.clone().record(add(1, 2), &mut bytes, journal.len());
        let new = field_bytes(form, fields.len() as u32 + 1, add(1, 2));
        let end = journal.len() + new.len();
        assert_eq!((answer.number, answer.length), (0, end));
        assert_eq!(bytes, [&journal[..], &new, &slice[end..]].concat());
    }
}

/// The first field with a no decides, by 14 and then 18. No 4 is given, and no rank is compared with
/// the plan's.
#[test]
fn recording_reads_k_fields() {
    let (early, late) = (rank(2, 5), rank(2, 9999));
    let (far, above) = (rank(65_535, 0), rank(2, 10_000));
    let entry = edit(add(0, 1));
    recorded(&[early, entry], &[], 0);
    recorded(&[early, early, far], &[], 0);
    recorded(&[entry, late], &[], 18);
    recorded(&[early, entry, entry, late, entry], &[], 18);
    recorded(&[edit(strike(7, 7)), far], &[], 18);
    recorded(&[above], &[], 14);
    recorded(&[entry, above], &[], 14);
    recorded(&[above, entry, late], &[], 14);
    recorded(&[entry, late, above], &[], 18);
    recorded(&[entry, late], &[0x4B, 4, 0], 18);
    recorded(&[entry, late], &[b'x', 4, 0], 18);
    recorded(&[early], &[0x4B, 4, 0], 14);
    recorded(&[early], &[0x4B], 14);
    recorded(&[entry], &[0x4B, 4, 0, 2, 0, 5], 14);
    recorded(&[early], &[0x4B, 5, 0, 2, 0, 5, 0, 0], 14);
}

/// 1,024 ranks and 4,430 clashes fill 59,999 bytes; one more of either does not fit 60,000.
#[test]
fn journals_with_ranks_end_at_60_000_bytes() {
    let mut slice = vec![0; 70_000];
    let ranks: Vec<usize> = (1..=1024).collect();
    let most = memory_of(&crowded(4430).with_ranks(ranks.clone()), 0);
    assert_eq!(most.start_journal(&mut slice).length, 59_999);
    let more = memory_of(&crowded(4431).with_ranks(ranks), 0);
    assert_eq!(more.start_journal(&mut slice).number, 15);
    let one_rank = crowded(5454).ranked(1023, 1);
    assert_eq!(memory_of(&one_rank, 0).start_journal(&mut slice).number, 15);
}
