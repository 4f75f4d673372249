//! The memory lent to a call: seven slices and the tally. Slices may be longer or shorter than a
//! plan needs.

use crate::graph::{Bank, Graph, Rank};
use crate::plan::{cell, Plan, Tally, MAX_BANKS, MAX_CAP, MAX_DEGREE, MAX_RANK, NO_BANK, WAVES};
use crate::reach::Reach;

#[derive(Clone, Debug, PartialEq, Eq)]
pub struct Memory {
    pub neighbours: Vec<u16>,
    pub degrees: Vec<u16>,
    pub waves: Vec<u16>,
    pub counts: Vec<u16>,
    pub ranks: Vec<u16>,
    pub trail: Vec<u16>,
    pub moved: Vec<u16>,
    pub tally: Tally,
}

impl Memory {
    /// Slices just long enough for n banks, with the same content in each cell and in the tally.
    pub fn filled(n: usize, content: u16) -> Memory {
        Memory {
            neighbours: vec![content; MAX_DEGREE * n],
            degrees: vec![content; n],
            waves: vec![content; n],
            counts: vec![content; WAVES * n],
            ranks: vec![content; n],
            trail: vec![content; n],
            moved: vec![content; n],
            tally: Tally {
                banks: content,
                clashes: content,
                waves: content,
                cap: content,
            },
        }
    }

    /// Whether the five plan slices are long enough for n banks.
    pub fn plan_fits(&self, n: usize) -> bool {
        self.neighbours.len() >= MAX_DEGREE * n
            && self.degrees.len() >= n
            && self.waves.len() >= n
            && self.counts.len() >= WAVES * n
            && self.ranks.len() >= n
    }

    /// Whether all seven slices are long enough for n banks.
    pub fn all_fit(&self, n: usize) -> bool {
        self.plan_fits(n) && self.trail.len() >= n && self.moved.len() >= n
    }

    /// Writes the plan of a graph, with the cap after opening. Cells beyond the plan's stay.
    pub fn store_plan(&mut self, graph: &Graph) {
        self.store_capped(graph, MAX_CAP);
    }

    /// Writes the plan of a graph, with a cap. Cells beyond the plan's stay.
    pub fn store_capped(&mut self, graph: &Graph, cap: u16) {
        let plan = Plan::capped(graph, cap);
        write_front(&mut self.neighbours, &plan.neighbours);
        write_front(&mut self.degrees, &plan.degrees);
        write_front(&mut self.waves, &plan.waves);
        write_front(&mut self.counts, &plan.counts);
        write_front(&mut self.ranks, &plan.ranks);
        self.tally = plan.tally;
    }

    /// Writes trail and moved from their front. Cells after them stay.
    pub fn store_reach(&mut self, reach: &Reach) {
        write_front(&mut self.trail, &cells(&reach.trail));
        write_front(&mut self.moved, &cells(&reach.moved));
    }

    /// Whether the memory holds a plan.
    pub fn holds_plan(&self) -> bool {
        self.held_graph().is_some()
    }

    /// The graph whose plan the memory holds, if it holds one: the graph of the clashes that the rows
    /// name and the ranks that stand there, if all cells and the tally are those of its plan with the
    /// tally's cap, which is a number from 1 to 24 and not below its waves.
    pub fn held_graph(&self) -> Option<Graph> {
        let n = usize::from(self.tally.banks);
        if n > MAX_BANKS || !self.plan_fits(n) {
            return None;
        }
        let rows: Vec<Vec<Bank>> = (0..n).map(|b| self.read_row(b)).collect::<Option<_>>()?;
        let graph = graph_of_rows(&rows)?.with_ranks(self.read_ranks(n)?);
        let plan = Plan::capped(&graph, self.tally.cap);
        let capped = in_span(self.tally.cap) && plan.tally.waves <= self.tally.cap;
        (capped && self.has_cells_of(&plan)).then_some(graph)
    }

    /// The row of b, if it is banks below n other than b, strictly ascending, then 65,535 only.
    fn read_row(&self, b: Bank) -> Option<Vec<Bank>> {
        let n = usize::from(self.tally.banks);
        let row = &self.neighbours[MAX_DEGREE * b..][..MAX_DEGREE];
        let filled = row.iter().take_while(|&&q| q != NO_BANK).count();
        let banks: Vec<Bank> = row[..filled].iter().map(|&q| usize::from(q)).collect();
        let named = banks.iter().all(|&q| q < n && q != b);
        let ascending = banks.windows(2).all(|pair| pair[0] < pair[1]);
        let padded = row[filled..].iter().all(|&q| q == NO_BANK);
        (named && ascending && padded).then_some(banks)
    }

    /// The ranks of n banks, if none is above 9,999.
    fn read_ranks(&self, n: usize) -> Option<Vec<Rank>> {
        let ranks = self.ranks[..n].iter().map(|&rank| usize::from(rank));
        ranks
            .map(|rank| (rank <= MAX_RANK).then_some(rank))
            .collect()
    }

    /// Whether the front cells of the five plan slices, and the tally, are those of the plan.
    fn has_cells_of(&self, plan: &Plan) -> bool {
        self.neighbours.starts_with(&plan.neighbours)
            && self.degrees.starts_with(&plan.degrees)
            && self.waves.starts_with(&plan.waves)
            && self.counts.starts_with(&plan.counts)
            && self.ranks.starts_with(&plan.ranks)
            && self.tally == plan.tally
    }
}

/// Whether a cap is a number from 1 to 24.
pub(crate) fn in_span(cap: u16) -> bool {
    (1..=MAX_CAP).contains(&cap)
}

/// The graph of rows of neighbours, if they are symmetric.
fn graph_of_rows(rows: &[Vec<Bank>]) -> Option<Graph> {
    let pairs_of = |b: Bank| rows[b].iter().map(move |&q| (b, q));
    let pairs: Vec<(Bank, Bank)> = (0..rows.len()).flat_map(pairs_of).collect();
    let symmetric = pairs.iter().all(|&(b, q)| rows[q].contains(&b));
    symmetric.then(|| Graph::of(rows.len(), pairs))
}

/// Banks as cells.
fn cells(banks: &[Bank]) -> Vec<u16> {
    banks.iter().map(|&b| cell(b)).collect()
}

fn write_front(slice: &mut [u16], front: &[u16]) {
    slice[..front.len()].copy_from_slice(front);
}
