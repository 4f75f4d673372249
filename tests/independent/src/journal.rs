//! The journal: its fields, and the calls that start one, record an edit in one and replay one.

use crate::calls::{cap_question, clash_questions};
use crate::graph::{Bank, Graph};
use crate::list::{Pass, MAX_BYTES};
use crate::memory::Memory;
use crate::plan::{cell, MAX_BANKS, MAX_RANK};
use crate::reach::Edit;
use crate::refusals::*;

/// The tags of the first field, of an add, of a strike and of a rank.
pub const FIRST: u8 = 0x4E;
pub const ADD: u8 = 0x2B;
pub const STRIKE: u8 = 0x2D;
pub const RANK: u8 = 0x4B;

/// The bytes of the first field.
pub const FIRST_BYTES: usize = 5;

/// The form of a journal's fields after the first: with an edit number in front of the value, or
/// without, the number being implied by the place.
#[derive(Clone, Copy, Debug, PartialEq, Eq)]
pub enum Form {
    Plain,
    Numbered,
}

pub const FORMS: [Form; 2] = [Form::Plain, Form::Numbered];

impl Form {
    /// The length of a value.
    pub fn value_bytes(self) -> usize {
        match self {
            Form::Plain => 4,
            Form::Numbered => 8,
        }
    }

    /// The bytes of a field after the first.
    pub fn entry_bytes(self) -> usize {
        3 + self.value_bytes()
    }

    /// The form that has values of this length.
    fn of_length(length: u16) -> Option<Form> {
        let fits = |form: &Form| form.value_bytes() == usize::from(length);
        FORMS.into_iter().find(fits)
    }
}

/// An edit with its two banks in the order given.
#[derive(Clone, Copy, Debug, PartialEq, Eq)]
pub struct Entry {
    pub edit: Edit,
    pub a: u16,
    pub b: u16,
}

/// A field after the first: an edit, or the rank that a bank gets.
#[derive(Clone, Copy, Debug, PartialEq, Eq)]
pub enum Field {
    Edit(Entry),
    Rank { bank: u16, rank: u16 },
}

impl From<Entry> for Field {
    fn from(entry: Entry) -> Field {
        Field::Edit(entry)
    }
}

/// The answer to start a journal: the number and the journal's length.
#[derive(Clone, Copy, Debug, PartialEq, Eq)]
pub struct StartAnswer {
    pub number: u16,
    pub length: usize,
}

/// The answer to an edit that is recorded: that of the edit, and the journal's new length.
#[derive(Clone, Copy, Debug, Default, PartialEq, Eq)]
pub struct RecordAnswer {
    pub number: u16,
    pub moved: usize,
    pub trail: usize,
    pub length: usize,
}

/// The answer to a replay: the number, the field of a refusal (0 if none), and how many bytes were
/// left over.
#[derive(Clone, Copy, Debug, Default, PartialEq, Eq)]
pub struct ReplayAnswer {
    pub number: u16,
    pub field: usize,
    pub left: usize,
}

/// The bytes of a field: tag, length of the value, value.
fn tagged(tag: u8, value: &[u8]) -> Vec<u8> {
    let [low, high] = cell(value.len()).to_le_bytes();
    [&[tag, low, high], value].concat()
}

/// The bytes of a field after the first, with this edit number if it has one.
pub fn field_bytes(form: Form, number: u32, field: impl Into<Field>) -> Vec<u8> {
    let (tag, a, b) = match field.into() {
        Field::Edit(Entry { edit, a, b }) => match edit {
            Edit::Add => (ADD, a, b),
            Edit::Strike => (STRIKE, a, b),
        },
        Field::Rank { bank, rank } => (RANK, bank, rank),
    };
    let pair = [a.to_le_bytes(), b.to_le_bytes()].concat();
    match form {
        Form::Plain => tagged(tag, &pair),
        Form::Numbered => tagged(tag, &[&number.to_le_bytes()[..], &pair].concat()),
    }
}

/// The fields after the first, counted from 1.
pub fn fields_of<F: Copy + Into<Field>>(form: Form, fields: &[F]) -> Vec<u8> {
    let numbered = (1..).zip(fields);
    let bytes = numbered.flat_map(|(number, &field)| field_bytes(form, number, field));
    bytes.collect()
}

/// The journal of n banks and the given fields after the first.
pub fn journal_of<F: Copy + Into<Field>>(form: Form, n: u16, fields: &[F]) -> Vec<u8> {
    [tagged(FIRST, &n.to_le_bytes()), fields_of(form, fields)].concat()
}

/// A new journal of a graph: the ranks other than 0, ascending by bank, then its clashes as adds,
/// smaller bank first, lowest pair first.
pub fn started(graph: &Graph) -> Vec<u8> {
    let rank = |b: Bank| Field::Rank {
        bank: cell(b),
        rank: cell(graph.rank(b)),
    };
    let above = |a: Bank| {
        graph
            .neighbours(a)
            .filter(move |&b| a < b)
            .map(move |b| (a, b))
    };
    let add = |(a, b)| {
        Field::Edit(Entry {
            edit: Edit::Add,
            a: cell(a),
            b: cell(b),
        })
    };
    let banks = 0..graph.banks();
    let ranks = banks.clone().filter(|&b| graph.rank(b) != 0).map(rank);
    let fields: Vec<Field> = ranks.chain(banks.flat_map(above).map(add)).collect();
    journal_of(Form::Numbered, cell(graph.banks()), &fields)
}

/// The bank count of the first field and the bytes after it, if that field is whole and right.
fn split_first(journal: &[u8]) -> Option<(u16, &[u8])> {
    match journal {
        [FIRST, 2, 0, low, high, rest @ ..] => Some((u16::from_le_bytes([*low, *high]), rest)),
        _ => None,
    }
}

/// What ends the fields of a journal: a wrong tag or length or a rank above 9,999, a number that is
/// not the next, or so many bytes left over.
#[derive(Clone, Copy, Debug, PartialEq, Eq)]
enum End {
    Wrong,
    Misnumbered,
    LeftOver(usize),
}

/// The fields after the first one, their form once there is one, and what ends them.
struct Fields {
    fields: Vec<Field>,
    form: Option<Form>,
    end: End,
}

impl Fields {
    fn read(mut bytes: &[u8]) -> Fields {
        let (mut fields, mut form, mut last) = (Vec::new(), None, 0);
        loop {
            match split_field(bytes, form, last) {
                Ok((field, found, rest)) => {
                    fields.push(field);
                    form = Some(found);
                    last += 1;
                    bytes = rest;
                }
                Err(end) => return Fields { fields, form, end },
            }
        }
    }

    /// The form and the edit number of the field that comes next.
    fn next(&self) -> (Form, u32) {
        let form = self.form.unwrap_or(Form::Numbered);
        (form, self.fields.len() as u32 + 1)
    }
}

/// The field at the front of the bytes, its form and the bytes after it. The fields before had this
/// form, if there are any, and the last of them this number.
fn split_field(bytes: &[u8], form: Option<Form>, last: u32) -> Result<(Field, Form, &[u8]), End> {
    let (tag, length, value) = match bytes {
        [] | [_] | [_, _] => return Err(End::LeftOver(bytes.len())),
        [tag @ (ADD | STRIKE | RANK), low, high, value @ ..] => {
            (*tag, u16::from_le_bytes([*low, *high]), value)
        }
        _ => return Err(End::Wrong),
    };
    let found = Form::of_length(length).ok_or(End::Wrong)?;
    if form.is_some_and(|form| form != found) {
        return Err(End::Wrong);
    }
    if value.len() < found.value_bytes() {
        return Err(End::LeftOver(bytes.len()));
    }
    let (value, rest) = value.split_at(found.value_bytes());
    let (number, pair) = value.split_at(value.len() - 4);
    let a = u16::from_le_bytes([pair[0], pair[1]]);
    let b = u16::from_le_bytes([pair[2], pair[3]]);
    if tag == RANK && usize::from(b) > MAX_RANK {
        return Err(End::Wrong);
    }
    let number = number.try_into().map(u32::from_le_bytes);
    if number.is_ok_and(|number| u64::from(number) != u64::from(last) + 1) {
        return Err(End::Misnumbered);
    }
    let field = match tag {
        ADD => Field::Edit(Entry {
            edit: Edit::Add,
            a,
            b,
        }),
        STRIKE => Field::Edit(Entry {
            edit: Edit::Strike,
            a,
            b,
        }),
        _ => Field::Rank { bank: a, rank: b },
    };
    Ok((field, found, rest))
}

/// The questions on the fields so far of a journal in which an edit is recorded, field by field: is
/// it whole and right, is its number the next, and does a rank come before the first edit? The
/// answer is the form and the number of the next field.
fn fields_so_far(rest: &[u8]) -> Result<(Form, u32), u16> {
    let read = Fields::read(rest);
    let mut begun = false;
    for field in &read.fields {
        match field {
            Field::Edit(_) => begun = true,
            Field::Rank { .. } => ask(!begun, RANK_AFTER_EDIT)?,
        }
    }
    ask(read.end != End::Misnumbered, WRONG_NUMBER)?;
    ask(read.end == End::LeftOver(0), NOT_A_FIELD)?;
    Ok(read.next())
}

/// Whether a journal of so many bytes is within the slice and the limit.
fn has_space(length: usize, slice: &[u8]) -> bool {
    length <= slice.len() && length <= MAX_BYTES
}

impl Memory {
    /// Start a journal at the front of the slice. Bytes beyond its length stay.
    pub fn start_journal(&self, slice: &mut [u8]) -> StartAnswer {
        let asked = self.plan_questions().and_then(|graph| {
            let journal = started(&graph);
            ask(has_space(journal.len(), slice), NO_SPACE)?;
            Ok(journal)
        });
        match asked {
            Ok(journal) => {
                slice[..journal.len()].copy_from_slice(&journal);
                StartAnswer {
                    number: ACCEPTED,
                    length: journal.len(),
                }
            }
            Err(number) => StartAnswer { number, length: 0 },
        }
    }

    /// Make an edit and write it after the last field of the journal, which is the front of the
    /// slice and has so many bytes.
    pub fn record(&mut self, entry: Entry, slice: &mut [u8], length: usize) -> RecordAnswer {
        match self.record_questions(entry, slice, length) {
            Ok((old, new, field)) => {
                let (a, b) = (usize::from(entry.a), usize::from(entry.b));
                let answer = self.store_edit(entry.edit, a, b, &old, &new);
                slice[length..][..field.len()].copy_from_slice(&field);
                RecordAnswer {
                    number: answer.number,
                    moved: answer.moved,
                    trail: answer.trail,
                    length: length + field.len(),
                }
            }
            Err(number) => RecordAnswer {
                number,
                ..RecordAnswer::default()
            },
        }
    }

    /// All questions of an edit that is recorded. The answer is the old and the new graph, and the
    /// bytes of the field.
    fn record_questions(
        &self,
        entry: Entry,
        slice: &[u8],
        length: usize,
    ) -> Result<(Graph, Graph, Vec<u8>), u16> {
        ask(length <= MAX_BYTES, LIST_TOO_LONG)?;
        let journal = slice.get(..length).ok_or(NOT_A_FIRST_FIELD)?;
        let (_, rest) = split_first(journal).ok_or(NOT_A_FIRST_FIELD)?;
        let old = self.memory_questions()?;
        let (form, number) = fields_so_far(rest)?;
        let new = clash_questions(entry.edit, entry.a.into(), entry.b.into(), &old)?;
        cap_question(&new, self.tally.cap)?;
        let field = field_bytes(form, number, entry);
        ask(has_space(length + field.len(), slice), NO_SPACE)?;
        Ok((old, new, field))
    }

    /// Replay a journal: open the plan, then set the fields' ranks and make their edits in turn.
    pub fn replay(&mut self, journal: &[u8]) -> ReplayAnswer {
        match self.replay_pass(journal) {
            Ok(left) => ReplayAnswer {
                left,
                ..ReplayAnswer::default()
            },
            Err((number, field)) => ReplayAnswer {
                number,
                field,
                left: 0,
            },
        }
    }

    /// The pass over a journal. The answer is how many bytes were left over; a refusal is number
    /// and field. Once the first field is accepted, the plan of the fields that were accepted is
    /// left, whether the pass ends in a refusal or not.
    fn replay_pass(&mut self, journal: &[u8]) -> Result<usize, (u16, usize)> {
        ask(journal.len() <= MAX_BYTES, LIST_TOO_LONG).map_err(|number| (number, 0))?;
        let (n, rest) = self.first_field(journal).map_err(|number| (number, 1))?;
        let mut pass = Pass::begin(n);
        let passed = self.later_fields(rest, &mut pass);
        self.store_plan(&pass.graph);
        passed
    }

    /// The questions on the first field. The answer is the bank count and the bytes after it.
    fn first_field<'a>(&self, journal: &'a [u8]) -> Result<(usize, &'a [u8]), u16> {
        let (n, rest) = split_first(journal).ok_or(NOT_A_FIRST_FIELD)?;
        let n = usize::from(n);
        ask(n <= MAX_BANKS, TOO_MANY_BANKS)?;
        ask(self.all_fit(n), SLICE_TOO_SHORT)?;
        Ok((n, rest))
    }

    /// The fields after the first, which is field 1. The answer is how many bytes were left over.
    fn later_fields(&mut self, rest: &[u8], pass: &mut Pass) -> Result<usize, (u16, usize)> {
        let Fields { fields, end, .. } = Fields::read(rest);
        for (place, &field) in (2..).zip(&fields) {
            let made = match field {
                Field::Edit(Entry { edit, a, b }) => {
                    self.edit_in_turn(edit, a.into(), b.into(), pass)
                }
                Field::Rank { bank, rank } => pass.set_rank(bank.into(), rank.into()),
            };
            made.map_err(|number| (number, place))?;
        }
        match end {
            End::Wrong => Err((NOT_A_FIELD, fields.len() + 2)),
            End::Misnumbered => Err((WRONG_NUMBER, fields.len() + 2)),
            End::LeftOver(left) => Ok(left),
        }
    }
}
