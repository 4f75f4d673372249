//! The plan of a graph, cell by cell, and its tally.

use crate::graph::{number_of_waves, Graph};

/// The most banks of a plan.
pub const MAX_BANKS: usize = 1024;

/// The most banks of a plan whose waves are read straight off the rule.
pub const MAX_BANKS_BY_RULE: usize = 16;

/// The most couriers of a crew.
pub const MAX_COURIERS: usize = 64;

/// The most steps that a crew may be asked to end within.
pub const MAX_LIMIT: usize = 1024;

/// The most clashes of a bank, and the length of its row of neighbours.
pub const MAX_DEGREE: usize = 23;

/// The cells of Counts of one bank, one for each wave.
pub const WAVES: usize = 24;

/// The largest cap of a plan, which it has after opening: no plan needs more waves.
pub const MAX_CAP: u16 = 24;

/// The largest rank of a bank.
pub const MAX_RANK: usize = 9999;

/// What the row cells after a bank's neighbours hold.
pub const NO_BANK: u16 = 65_535;

/// The tally: the numbers of banks, clashes and waves, and the cap, the most waves that an edit may
/// lead to.
#[derive(Clone, Copy, Debug, PartialEq, Eq)]
pub struct Tally {
    pub banks: u16,
    pub clashes: u16,
    pub waves: u16,
    pub cap: u16,
}

/// The cells of a plan and its tally.
#[derive(Clone, Debug, PartialEq, Eq)]
pub struct Plan {
    pub neighbours: Vec<u16>,
    pub degrees: Vec<u16>,
    pub waves: Vec<u16>,
    pub counts: Vec<u16>,
    pub ranks: Vec<u16>,
    pub tally: Tally,
}

impl Plan {
    /// The plan of a graph whose degrees are at most 23 and whose ranks are at most 9,999, as it stands
    /// after opening, lists and replays: its cap is 24.
    pub fn of(graph: &Graph) -> Plan {
        Plan::capped(graph, MAX_CAP)
    }

    /// The plan of such a graph, with a cap.
    pub fn capped(graph: &Graph, cap: u16) -> Plan {
        let n = graph.banks();
        let waves = graph.waves();
        let tally = Tally {
            banks: cell(n),
            clashes: cell(graph.clashes()),
            waves: cell(number_of_waves(&waves)),
            cap,
        };
        Plan {
            neighbours: (0..n).flat_map(|b| neighbours_row(graph, b)).collect(),
            degrees: (0..n).map(|b| cell(graph.degree(b))).collect(),
            counts: (0..n).flat_map(|b| counts_of(graph, &waves, b)).collect(),
            waves: waves.into_iter().map(cell).collect(),
            ranks: graph.ranks().iter().copied().map(cell).collect(),
            tally,
        }
    }
}

/// The row of b: its clashing banks ascending, then 65,535 in the cells left over.
fn neighbours_row(graph: &Graph, b: usize) -> [u16; MAX_DEGREE] {
    let mut row = [NO_BANK; MAX_DEGREE];
    for (place, q) in graph.neighbours(b).enumerate() {
        row[place] = cell(q);
    }
    row
}

/// The counts of b: cell c holds how many earlier neighbours of b stand in wave c.
fn counts_of(graph: &Graph, waves: &[usize], b: usize) -> [u16; WAVES] {
    let mut counts = [0; WAVES];
    for q in graph.neighbours(b).filter(|&q| graph.earlier(q, b)) {
        counts[waves[q]] += 1;
    }
    counts
}

/// A number as a cell.
pub fn cell(number: usize) -> u16 {
    u16::try_from(number).expect("a cell has 16 bits")
}
