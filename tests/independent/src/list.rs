//! The list: how its bytes split into rows, the forms of a row, and the call that reads a list.

use crate::calls::clash_questions;
use crate::graph::{Bank, Graph, Rank};
use crate::memory::Memory;
use crate::plan::MAX_BANKS;
use crate::reach::{reach, Edit};
use crate::refusals::*;

/// The most bytes of a list.
pub const MAX_BYTES: usize = 60_000;

/// The first row of a list in which D is not taken.
pub const V2: &[u8] = b"V 2";

/// The answer to a list: the number, and the row of a refusal (0 if none).
#[derive(Clone, Copy, Debug, PartialEq, Eq)]
pub struct ListAnswer {
    pub number: u16,
    pub row: usize,
}

/// A row after the N row.
#[derive(Clone, Copy, Debug, PartialEq, Eq)]
pub enum Row {
    Add(Bank, Bank),
    Strike(Bank, Bank),
    StrikeAll(Bank),
    Rank(Bank, Rank),
}

/// Where a pass over a list or a journal stands: the graph so far, and whether an edit row or an
/// edit field has come. Ranks are set before that.
#[derive(Clone, Debug)]
pub(crate) struct Pass {
    pub graph: Graph,
    pub begun: bool,
}

impl Pass {
    /// After the first row or field: n banks, no clash, all of rank 0.
    pub fn begin(n: usize) -> Pass {
        Pass {
            graph: Graph::empty(n),
            begun: false,
        }
    }

    /// A K row or field: its questions, then the rank. The last one of a bank counts. No wave
    /// changes, as there is no clash.
    pub fn set_rank(&mut self, b: Bank, rank: Rank) -> Result<(), u16> {
        ask(!self.begun, RANK_AFTER_EDIT)?;
        ask(b < self.graph.banks(), NO_SUCH_BANK)?;
        self.graph = self.graph.ranked(b, rank);
        Ok(())
    }
}

/// The rows of a list. A row ends at a line feed or at the end of the bytes; nothing after a
/// final line feed is no row.
pub fn rows(list: &[u8]) -> Vec<&[u8]> {
    let mut rows: Vec<&[u8]> = list.split(|&byte| byte == b'\n').collect();
    if let Some([]) = rows.last() {
        rows.pop();
    }
    rows
}

/// How many rows stand before the N row: one if the list starts with `V 2`.
pub fn rows_before_n(rows: &[&[u8]]) -> usize {
    usize::from(rows.first() == Some(&V2))
}

/// The bank count of an N row.
pub fn n_row(row: &[u8]) -> Option<usize> {
    match parts(row)[..] {
        [b"N", n] => number(n),
        _ => None,
    }
}

/// A row after the N row, if it has one of the four forms.
pub fn later_row(row: &[u8]) -> Option<Row> {
    match parts(row)[..] {
        [b"+", a, b] => Some(Row::Add(number(a)?, number(b)?)),
        [b"-", a, b] => Some(Row::Strike(number(a)?, number(b)?)),
        [b"D", b] => Some(Row::StrikeAll(number(b)?)),
        [b"K", b, rank] => Some(Row::Rank(number(b)?, number(rank)?)),
        _ => None,
    }
}

/// The parts of a row. Each space parts; a space too many leaves an empty part, which is neither
/// a number nor a letter.
fn parts(row: &[u8]) -> Vec<&[u8]> {
    row.split(|&byte| byte == b' ').collect()
}

/// A number: 1 to 4 digits, leading zeros allowed.
fn number(digits: &[u8]) -> Option<usize> {
    let short = (1..=4).contains(&digits.len());
    let decimal = digits.iter().all(u8::is_ascii_digit);
    let value = |so_far, digit: &u8| 10 * so_far + usize::from(digit - b'0');
    (short && decimal).then(|| digits.iter().fold(0, value))
}

impl Memory {
    /// Read a list: open the plan, then make the rows' edits in turn.
    pub fn read_list(&mut self, list: &[u8]) -> ListAnswer {
        match self.list_pass(list) {
            Ok(()) => ListAnswer {
                number: ACCEPTED,
                row: 0,
            },
            Err((number, row)) => ListAnswer { number, row },
        }
    }

    /// The pass over a list. A refusal is number and row. Once the N row is accepted, the plan of the
    /// rows that were accepted is left, whether the pass ends in a refusal or not.
    fn list_pass(&mut self, list: &[u8]) -> Result<(), (u16, usize)> {
        ask(list.len() <= MAX_BYTES, LIST_TOO_LONG).map_err(|number| (number, 0))?;
        let rows = rows(list);
        let before = rows_before_n(&rows);
        let n = self
            .first_row(&rows[before..])
            .map_err(|number| (number, before + 1))?;
        let mut pass = Pass::begin(n);
        let mut later = (before + 2..).zip(&rows[before + 1..]);
        let passed = later.try_for_each(|(place, row)| {
            let made = self.row_in_turn(row, before == 0, &mut pass);
            made.map_err(|number| (number, place))
        });
        self.store_plan(&pass.graph);
        passed
    }

    /// The questions on the N row, the first of these. The answer is the bank count.
    fn first_row(&self, rows: &[&[u8]]) -> Result<usize, u16> {
        let row = rows.first().ok_or(NOT_AN_N_ROW)?;
        let n = n_row(row).ok_or(NOT_AN_N_ROW)?;
        ask(n <= MAX_BANKS, TOO_MANY_BANKS)?;
        ask(self.all_fit(n), SLICE_TOO_SHORT)?;
        Ok(n)
    }

    /// One further row: its questions, then its edits or its rank.
    fn row_in_turn(&mut self, row: &[u8], d_taken: bool, pass: &mut Pass) -> Result<(), u16> {
        match later_row(row).ok_or(NOT_A_ROW)? {
            Row::Add(a, b) => self.edit_in_turn(Edit::Add, a, b, pass),
            Row::Strike(a, b) => self.edit_in_turn(Edit::Strike, a, b, pass),
            Row::StrikeAll(b) => {
                ask(d_taken, D_RETIRED)?;
                ask(b < pass.graph.banks(), NO_SUCH_BANK)?;
                pass.begun = true;
                let ascending: Vec<Bank> = pass.graph.neighbours(b).collect();
                let mut ascending = ascending.into_iter();
                ascending.try_for_each(|q| self.edit_in_turn(Edit::Strike, b, q, pass))
            }
            Row::Rank(b, rank) => pass.set_rank(b, rank),
        }
    }

    /// One edit of a list or a journal: its questions, its trail and moved, and the graph after it.
    pub(crate) fn edit_in_turn(
        &mut self,
        edit: Edit,
        a: Bank,
        b: Bank,
        pass: &mut Pass,
    ) -> Result<(), u16> {
        let new = clash_questions(edit, a, b, &pass.graph)?;
        self.store_reach(&reach(edit, a, b, &pass.graph, &new));
        *pass = Pass {
            graph: new,
            begun: true,
        };
        Ok(())
    }
}
