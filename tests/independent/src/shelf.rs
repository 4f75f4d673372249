//! The shelf: three places for plans that are kept by name, in one lent slice, and the calls that
//! open it, keep the present plan in it and come back to a kept one.

use crate::graph::Graph;
use crate::memory::Memory;
use crate::plan::{cell, Plan, Tally, MAX_BANKS, MAX_DEGREE, WAVES};
use crate::refusals::*;

/// The known names, in the order of their places.
pub const NAMES: [&[u8; 8]; 3] = [b"MORNING ", b"NOON    ", b"CLOSE   "];

/// A plan as it is kept: its graph and its cap.
#[derive(Clone, Debug, PartialEq, Eq)]
struct Kept {
    graph: Graph,
    cap: u16,
}

/// The answer to come back: the number, and how many banks stand in another wave than before.
#[derive(Clone, Copy, Debug, PartialEq, Eq)]
pub struct BackAnswer {
    pub number: u16,
    pub moved: usize,
}

/// The cells of a place for n banks: the used cell, a plan's cells but the ranks, banks, clashes and
/// waves of the tally, the ranks, the cap.
pub fn place_cells(n: usize) -> usize {
    1 + MAX_DEGREE * n + n + n + WAVES * n + 3 + n + 1
}

/// The cells of a shelf for n banks.
pub fn shelf_cells(n: usize) -> usize {
    NAMES.len() * place_cells(n)
}

/// The cells of a place in which a plan is kept.
pub fn kept_cells(plan: &Plan) -> Vec<u16> {
    let tally = [plan.tally.banks, plan.tally.clashes, plan.tally.waves];
    let parts: [&[u16]; 8] = [
        &[1],
        &plan.neighbours,
        &plan.degrees,
        &plan.waves,
        &plan.counts,
        &tally,
        &plan.ranks,
        &[plan.tally.cap],
    ];
    parts.concat()
}

/// Open a shelf for n banks. Its three used cells become 0; no other cell changes.
pub fn open_shelf(shelf: &mut [u16], n: u16) -> u16 {
    let n = usize::from(n);
    let asked = ask(n <= MAX_BANKS, TOO_MANY_BANKS)
        .and_then(|()| ask(shelf.len() >= shelf_cells(n), SLICE_TOO_SHORT));
    match asked {
        Ok(()) => {
            for place in 0..NAMES.len() {
                shelf[place * place_cells(n)] = 0;
            }
            ACCEPTED
        }
        Err(number) => number,
    }
}

/// What is kept in each place of a shelf for n banks: nothing, or a plan. An unused place is not
/// read.
fn kept_plans(shelf: &[u16], n: usize) -> Result<Vec<Option<Kept>>, u16> {
    let places = shelf.chunks(place_cells(n)).take(NAMES.len());
    let kept = |place: &[u16]| match place[0] {
        0 => Ok(None),
        1 => kept_plan(&place[1..], n).map(Some).ok_or(NO_PLAN),
        _ => Err(NO_PLAN),
    };
    places.map(kept).collect()
}

/// The plan of n banks that the cells after the used cell hold, if they hold one.
fn kept_plan(cells: &[u16], n: usize) -> Option<Kept> {
    let (neighbours, rest) = cells.split_at(MAX_DEGREE * n);
    let (degrees, rest) = rest.split_at(n);
    let (waves, rest) = rest.split_at(n);
    let (counts, rest) = rest.split_at(WAVES * n);
    let (tally, rest) = rest.split_at(3);
    let (ranks, cap) = rest.split_at(n);
    let place = Memory {
        neighbours: neighbours.to_vec(),
        degrees: degrees.to_vec(),
        waves: waves.to_vec(),
        counts: counts.to_vec(),
        ranks: ranks.to_vec(),
        trail: Vec::new(),
        moved: Vec::new(),
        tally: Tally {
            banks: tally[0],
            clashes: tally[1],
            waves: tally[2],
            cap: cap[0],
        },
    };
    let graph = place.held_graph().filter(|graph| graph.banks() == n)?;
    Some(Kept { graph, cap: cap[0] })
}

/// The place of a name, if it is known.
fn place_of(name: &[u8]) -> Option<usize> {
    NAMES.iter().position(|known| known[..] == *name)
}

impl Memory {
    /// Keep the plan and its cap under a name. The other two places stay, and so do the cells beyond.
    pub fn keep(&self, shelf: &mut [u16], name: &[u8]) -> u16 {
        let asked = self.shelf_questions(shelf, Memory::plan_fits);
        let asked = asked.and_then(|(present, _)| {
            let place = place_of(name).ok_or(UNKNOWN_NAME)?;
            Ok((present, place))
        });
        match asked {
            Ok((present, place)) => {
                let cells = kept_cells(&Plan::capped(&present, self.tally.cap));
                shelf[place * cells.len()..][..cells.len()].copy_from_slice(&cells);
                ACCEPTED
            }
            Err(number) => number,
        }
    }

    /// Come back to the plan and the cap that are kept under a name. The banks whose wave differs go to the
    /// front of moved, ascending.
    pub fn come_back(&mut self, shelf: &[u16], name: &[u8]) -> BackAnswer {
        let fits = |memory: &Memory, n| memory.plan_fits(n) && memory.moved.len() >= n;
        let asked = self.shelf_questions(shelf, fits);
        let asked = asked.and_then(|(present, kept)| {
            let place = place_of(name).ok_or(UNKNOWN_NAME)?;
            let kept = kept[place].clone().ok_or(NOTHING_KEPT)?;
            Ok((present, kept))
        });
        match asked {
            Ok((present, kept)) => {
                let (old, new) = (present.waves(), kept.graph.waves());
                let differs = |&b: &usize| old[b] != new[b];
                let moved: Vec<u16> = (0..new.len()).filter(differs).map(cell).collect();
                self.store_capped(&kept.graph, kept.cap);
                self.moved[..moved.len()].copy_from_slice(&moved);
                BackAnswer {
                    number: ACCEPTED,
                    moved: moved.len(),
                }
            }
            Err(number) => BackAnswer { number, moved: 0 },
        }
    }

    /// The questions on memory and shelf. The answer is the present graph, and what is kept in
    /// each place.
    fn shelf_questions(
        &self,
        shelf: &[u16],
        fits: impl Fn(&Memory, usize) -> bool,
    ) -> Result<(Graph, Vec<Option<Kept>>), u16> {
        let n = self.tally_banks()?;
        ask(fits(self, n), SLICE_TOO_SHORT)?;
        ask(shelf.len() >= shelf_cells(n), SLICE_TOO_SHORT)?;
        let present = self.held_graph().ok_or(NO_PLAN)?;
        Ok((present, kept_plans(shelf, n)?))
    }
}
