//! Lists: random ones, the edits and the ranks that a list stands for, and its sheet by a colouring
//! from scratch.

use crate::clashes::{Clashes, Edit};
use crate::scratch::Colouring;
use crate::BANKS;
use independent::list::{later_row, n_row, rows, Row};
use independent::random::Random;
use independent::sheet::sheet_text;

/// The most bytes of a list.
const MOST_BYTES: usize = 60_000;

/// What an accepted list stands for.
pub struct Depot {
    pub ranks: Vec<u16>,
    /// The edits of each row after the K rows.
    pub edits: Vec<Vec<Edit>>,
    /// The clashes at the end.
    pub clashes: Clashes,
}

impl Depot {
    pub fn of(list: &[u8]) -> Depot {
        let mut rows = rows(list).into_iter();
        let banks = rows.next().and_then(n_row).expect("an N row");
        let mut depot = Depot {
            ranks: vec![0; banks],
            edits: Vec::new(),
            clashes: Clashes::none(banks),
        };
        for row in rows {
            depot.row(later_row(row).expect("an accepted list"));
        }
        depot
    }

    fn row(&mut self, row: Row) {
        let edits = match row {
            Row::Rank(b, rank) => {
                self.ranks[b] = rank as u16;
                return;
            }
            Row::StrikeAll(b) => self.clashes.strike_all(b as u16),
            Row::Add(a, b) => self.one(Edit::Add(a as u16, b as u16)),
            Row::Strike(a, b) => self.one(Edit::Strike(a as u16, b as u16)),
        };
        self.edits.push(edits);
    }

    fn one(&mut self, edit: Edit) -> Vec<Edit> {
        self.clashes.make(edit);
        vec![edit]
    }
}

/// The sheet of a colouring of these clashes.
pub fn sheet_of(colouring: &Colouring, clashes: &Clashes) -> Vec<u8> {
    let waves: Vec<usize> = colouring.waves.iter().map(|&w| usize::from(w)).collect();
    sheet_text(&waves, clashes.count()).into_bytes()
}

/// The sheet of these clashes and ranks, coloured from scratch.
pub fn sheet_by_scratch(clashes: &Clashes, ranks: &[u16]) -> Vec<u8> {
    let mut colouring = Colouring::new(ranks);
    colouring.by_standard_sort(&clashes.neighbours, &clashes.degrees);
    sheet_of(&colouring, clashes)
}

/// The list's first rows: so many, the N row included.
pub fn first_rows(list: &[u8], count: usize) -> &[u8] {
    let ends = list.iter().enumerate().filter(|&(_, &byte)| byte == b'\n');
    let end = ends.map(|(place, _)| place).nth(count - 1);
    &list[..end.unwrap_or(list.len())]
}

/// The N row, and K rows with the given ranks, four digits each, so that the edits after them do not
/// hang on the ranks.
fn start_of(banks: usize, ranks: &[u16]) -> Vec<u8> {
    let mut list = format!("N {banks}").into_bytes();
    for (b, rank) in ranks.iter().enumerate() {
        list.extend(format!("\nK {b} {rank:04}").bytes());
    }
    list
}

fn row_of(edit: Edit) -> String {
    match edit {
        Edit::Add(a, b) => format!("\n+ {a} {b}"),
        Edit::Strike(a, b) => format!("\n- {a} {b}"),
    }
}

/// A random list for 1,024 banks: K rows with the given ranks, or none; then adds, a strike in about
/// eight rows, a D row in about 200.
pub fn list_of_60_000_bytes(ranks: &[u16]) -> Vec<u8> {
    let mut random = Random::new(60_000);
    let mut clashes = Clashes::none(BANKS);
    let mut list = start_of(BANKS, ranks);
    let strikes_from = list.len() + 94;
    while list.len() < MOST_BYTES {
        let left = MOST_BYTES - list.len();
        if left > 100 && random.one_in(200) {
            let b = random.below(BANKS) as u16;
            list.extend(format!("\nD {b}").bytes());
            clashes.strike_all(b);
            continue;
        }
        let edit = if random.one_in(8) && list.len() > strikes_from {
            clashes.random_strike(&mut random)
        } else {
            clashes.random_add(&mut random)
        };
        let row = row_of(edit);
        // The last rows are drawn until they just fit. One row has up to 12 bytes, and rows of
        // at least 8 are frequent enough to wait for.
        let fits = match left.checked_sub(row.len()) {
            Some(rest) => matches!(rest, 0 | 8..=12 | 16..),
            None => false,
        };
        if fits {
            list.extend(row.bytes());
            clashes.make(edit);
        }
    }
    list
}

/// A random list for 1,024 banks: K rows with the given ranks, or none; adds up to so many clashes,
/// then strikes and adds in turn, as far as the bytes go.
pub fn steady_list(ranks: &[u16], clashes: usize) -> Vec<u8> {
    let mut random = Random::new(clashes as u64);
    let mut drawn = Clashes::none(BANKS);
    let mut list = start_of(BANKS, ranks);
    for place in 0.. {
        let edit = if place < clashes || place % 2 == 1 {
            drawn.random_add(&mut random)
        } else {
            drawn.random_strike(&mut random)
        };
        let row = row_of(edit);
        if list.len() + row.len() > MOST_BYTES {
            break;
        }
        list.extend(row.bytes());
        drawn.make(edit);
    }
    list
}

/// A random list for 10 to 400 banks, every second one with ranks: four edit rows to a bank, a strike
/// in about eight. With its sheet.
pub fn depot_list(random: &mut Random) -> (Vec<u8>, Vec<u8>) {
    let banks = random.between(10, 400);
    let ranked = random.one_in(2);
    let rank = |_| if ranked { random.below(10_000) } else { 0 } as u16;
    let ranks: Vec<u16> = (0..banks).map(rank).collect();
    let mut clashes = Clashes::none(banks);
    let mut list = start_of(banks, if ranked { &ranks } else { &[] });
    for place in 0..4 * banks {
        let edit = if place > banks && random.one_in(8) {
            clashes.random_strike(random)
        } else {
            clashes.random_add(random)
        };
        list.extend(row_of(edit).bytes());
        clashes.make(edit);
    }
    let sheet = sheet_by_scratch(&clashes, &ranks);
    (list, sheet)
}
