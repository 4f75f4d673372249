//! Journals for the tests, the same in each run: random ranks and edits, and random journals, whole
//! or damaged.

use crate::journal::{
    field_bytes, journal_of, Entry, Field, Form, ADD, FIRST, FIRST_BYTES, FORMS, RANK, STRIKE,
};
use crate::plan::{cell, MAX_DEGREE, MAX_RANK};
use crate::random::Random;
use crate::ranks::{drawn_settings, shuffled};
use crate::reach::Edit;
use std::collections::BTreeSet;

/// Edits of n banks, each accepted after those before it, from so many draws. Banks below `hot`
/// are drawn more often; of two that clash, one draw in four makes a strike.
pub fn drawn_entries(random: &mut Random, n: usize, hot: usize, draws: usize) -> Vec<Entry> {
    let mut entries = Vec::new();
    let mut clashes = BTreeSet::new();
    let mut degrees = vec![0; n];
    for _ in 0..if n < 2 { 0 } else { draws } {
        let range = if random.one_in(3) { n } else { hot.min(n) };
        let (a, b) = (random.below(range), random.below(range));
        let pair = (a.min(b), a.max(b));
        let room = degrees[a] < MAX_DEGREE && degrees[b] < MAX_DEGREE;
        let edit = if clashes.contains(&pair) {
            if !random.one_in(4) {
                continue;
            }
            clashes.remove(&pair);
            degrees[a] -= 1;
            degrees[b] -= 1;
            Edit::Strike
        } else if a != b && room {
            clashes.insert(pair);
            degrees[a] += 1;
            degrees[b] += 1;
            Edit::Add
        } else {
            continue;
        };
        let (a, b) = (cell(a), cell(b));
        entries.push(Entry { edit, a, b });
    }
    entries
}

/// Ranks of n banks as fields.
pub fn drawn_rank_fields(random: &mut Random, n: usize) -> Vec<Field> {
    let rank = |(bank, rank)| Field::Rank {
        bank: cell(bank),
        rank: cell(rank),
    };
    drawn_settings(random, n).into_iter().map(rank).collect()
}

/// Ranks of n banks as fields, and then edits.
pub fn drawn_fields(random: &mut Random, n: usize, hot: usize, draws: usize) -> Vec<Field> {
    let mut fields = drawn_rank_fields(random, n);
    let entries = drawn_entries(random, n, hot, draws);
    fields.extend(entries.into_iter().map(Field::Edit));
    fields
}

/// The list of the same ranks and edits as a journal of n banks and the given fields.
pub fn same_list<F: Copy + Into<Field>>(n: u16, fields: &[F]) -> Vec<u8> {
    let row = |&field: &F| match field.into() {
        Field::Edit(Entry { edit, a, b }) => match edit {
            Edit::Add => format!("\n+ {a} {b}"),
            Edit::Strike => format!("\n- {a} {b}"),
        },
        Field::Rank { bank, rank } => format!("\nK {bank} {rank}"),
    };
    let rows: String = fields.iter().map(row).collect();
    format!("N {n}{rows}").into_bytes()
}

/// A random journal of either form, damaged in two of three cases.
pub fn random_journal(random: &mut Random) -> Vec<u8> {
    let (n, draws) = match random.below(12) {
        0 => (random.between(0, 2), 3),
        1 => (*random.pick(&[255, 256, 1023, 1024]), random.below(30)),
        2 | 3 => (random.between(24, 40), random.between(800, 1200)),
        _ => (random.between(2, 30), random.below(200)),
    };
    let hot = random.between(2, 26);
    let fields = if n > 24 && random.one_in(20) {
        overfull(random, n)
    } else {
        drawn_fields(random, n, hot, draws)
    };
    let form = *random.pick(&FORMS);
    let mut journal = journal_of(form, cell(n), &fields);
    for _ in 0..random.below(3) {
        damage(random, n, form, &mut journal);
    }
    journal
}

/// Numbers the fields of a journal anew, from 1.
pub fn renumber(form: Form, journal: &mut [u8]) {
    if form == Form::Numbered && journal.len() > FIRST_BYTES {
        let fields = journal[FIRST_BYTES..].chunks_exact_mut(form.entry_bytes());
        for (number, field) in (1u32..).zip(fields) {
            field[3..7].copy_from_slice(&number.to_le_bytes());
        }
    }
}

/// Another number than the right one: off by one, zero, with a high bit or byte more, its bytes the
/// other way round, or any.
pub fn wrong_number(random: &mut Random, right: u32) -> u32 {
    let any = random.draw() as u32;
    let wrong = *random.pick(&[
        right + 1,
        right - 1,
        0,
        right + 256,
        right + 65_536,
        right | 1 << 31,
        right.wrapping_neg(),
        right.swap_bytes(),
        u32::MAX,
        any,
    ]);
    if wrong == right {
        right + 1
    } else {
        wrong
    }
}

/// Ranks of n banks, and 24 clashes of one bank, of which the last is refused. There are more than 24
/// banks.
fn overfull(random: &mut Random, n: usize) -> Vec<Field> {
    let mut fields = drawn_rank_fields(random, n);
    let banks: Vec<u16> = shuffled(random, n).into_iter().map(cell).collect();
    let add = |&b: &u16| {
        Field::Edit(Entry {
            edit: Edit::Add,
            a: b,
            b: banks[0],
        })
    };
    fields.extend(banks[1..25].iter().map(add));
    fields
}

/// One damage: a stray field, a field less, a byte, a tag, a length, a number, a rank, a bank count or
/// a cut. Where fields come or go the others are numbered anew in two of three cases.
fn damage(random: &mut Random, n: usize, form: Form, journal: &mut Vec<u8>) {
    let size = form.entry_bytes();
    let fields = journal.len().saturating_sub(FIRST_BYTES) / size;
    let place = random.below(fields + 1);
    let start = FIRST_BYTES + size * place;
    let number = place as u32 + 1;
    if journal.len() < start + size || random.one_in(3) {
        let stray = field_bytes(form, number, stray_field(random, n));
        let start = start.min(journal.len());
        journal.splice(start..start, stray);
        if !random.one_in(3) {
            renumber(form, journal);
        }
        return;
    }
    match random.below(10) {
        0 => journal[start] = *random.pick(&[ADD, STRIKE, RANK, FIRST, b'D']),
        1 => journal[start + 1] = *random.pick(&[2, 3, 4, 5, 8]),
        2 => journal[start + 2] = random.byte(),
        3 => journal.truncate(start + random.below(size)),
        4 => {
            journal.drain(start..start + size);
            if !random.one_in(3) {
                renumber(form, journal);
            }
        }
        5 => journal[random.below(FIRST_BYTES)] = random.byte(),
        6 => {
            let rank = stray_rank(random).to_le_bytes();
            journal[start + size - 2..start + size].copy_from_slice(&rank);
        }
        7 if form == Form::Numbered => {
            let number = wrong_number(random, number).to_le_bytes();
            journal[start + 3..start + 7].copy_from_slice(&number);
        }
        _ => {
            let place = random.below(journal.len());
            journal[place] = random.byte();
        }
    }
}

/// An edit or a rank of n banks or banks near to them, accepted or not.
fn stray_field(random: &mut Random, n: usize) -> Field {
    let far = *random.pick(&[n, n + 1, 1024, 65_535]);
    let (a, b) = (random.below(n.max(1)), random.below(n.max(1)));
    let (a, b) = match random.below(6) {
        0 => (a, far),
        1 => (far, b),
        2 => (a, a),
        _ => (a, b),
    };
    let (a, b) = (cell(a), cell(b));
    if random.one_in(3) {
        let rank = stray_rank(random);
        return Field::Rank { bank: a, rank };
    }
    let edit = *random.pick(&[Edit::Add, Edit::Strike]);
    Field::Edit(Entry { edit, a, b })
}

/// A rank, or a number near to one, or far from all.
fn stray_rank(random: &mut Random) -> u16 {
    let any = random.below(MAX_RANK + 1);
    let rank = *random.pick(&[0, any, MAX_RANK, MAX_RANK + 1, 16_384, 65_535]);
    cell(rank)
}
