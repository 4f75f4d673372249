//! The planner's calls: open, add, strike, set the cap, wave of a bank, kept or read straight off the
//! rule, clashes of a bank, and how many waves at most. Each asks its questions in the paper's order, and a refused call writes nothing.

use crate::graph::{number_of_waves, Bank, Graph};
use crate::memory::{in_span, Memory};
use crate::plan::{MAX_BANKS, MAX_BANKS_BY_RULE, MAX_DEGREE};
use crate::reach::{reach, Edit};
use crate::refusals::*;

/// The answer to an edit: the number, and how many cells of moved and trail it wrote.
#[derive(Clone, Copy, Debug, PartialEq, Eq)]
pub struct EditAnswer {
    pub number: u16,
    pub moved: usize,
    pub trail: usize,
}

/// The answer to wave of a bank: the number and the wave.
#[derive(Clone, Copy, Debug, PartialEq, Eq)]
pub struct WaveAnswer {
    pub number: u16,
    pub wave: u16,
}

/// The answer to how many waves at most: the number and the bound.
#[derive(Clone, Copy, Debug, PartialEq, Eq)]
pub struct BoundAnswer {
    pub number: u16,
    pub bound: usize,
}

impl Memory {
    /// Open: n banks, no clash, all of rank 0, the cap 24.
    pub fn open(&mut self, n: u16) -> u16 {
        let n = usize::from(n);
        let asked = ask(n <= MAX_BANKS, TOO_MANY_BANKS)
            .and_then(|()| ask(self.plan_fits(n), SLICE_TOO_SHORT));
        match asked {
            Ok(()) => {
                self.store_plan(&Graph::empty(n));
                ACCEPTED
            }
            Err(number) => number,
        }
    }

    /// Add the clash of a and b.
    pub fn add(&mut self, a: u16, b: u16) -> EditAnswer {
        self.edit(Edit::Add, a, b)
    }

    /// Strike the clash of a and b.
    pub fn strike(&mut self, a: u16, b: u16) -> EditAnswer {
        self.edit(Edit::Strike, a, b)
    }

    /// An edit. If accepted, it leaves the plan of the new graph under the same cap, trail and moved.
    fn edit(&mut self, edit: Edit, a: u16, b: u16) -> EditAnswer {
        let (a, b) = (usize::from(a), usize::from(b));
        let asked = self.memory_questions().and_then(|old| {
            let new = clash_questions(edit, a, b, &old)?;
            cap_question(&new, self.tally.cap)?;
            Ok((old, new))
        });
        match asked {
            Ok((old, new)) => self.store_edit(edit, a, b, &old, &new),
            Err(number) => EditAnswer {
                number,
                moved: 0,
                trail: 0,
            },
        }
    }

    /// Stores what the accepted edit leaves that leads from the old graph to the new one.
    pub(crate) fn store_edit(
        &mut self,
        edit: Edit,
        a: Bank,
        b: Bank,
        old: &Graph,
        new: &Graph,
    ) -> EditAnswer {
        let reach = reach(edit, a, b, old, new);
        self.store_capped(new, self.tally.cap);
        self.store_reach(&reach);
        EditAnswer {
            number: ACCEPTED,
            moved: reach.moved.len(),
            trail: reach.trail.len(),
        }
    }

    /// The questions of an edit on its memory. The answer is the graph.
    pub(crate) fn memory_questions(&self) -> Result<Graph, u16> {
        let n = self.tally_banks()?;
        ask(self.all_fit(n), SLICE_TOO_SHORT)?;
        self.held_graph().ok_or(NO_PLAN)
    }

    /// Set the cap. Only the tally's cap changes.
    pub fn set_cap(&mut self, cap: u16) -> u16 {
        let asked = self.plan_questions().and_then(|graph| {
            ask(in_span(cap), CAP_OUT_OF_SPAN)?;
            cap_question(&graph, cap)
        });
        match asked {
            Ok(()) => {
                self.tally.cap = cap;
                ACCEPTED
            }
            Err(number) => number,
        }
    }

    /// Wave of bank b.
    pub fn wave_of(&self, b: u16) -> WaveAnswer {
        match self.bank_questions(b) {
            Ok(_) => WaveAnswer {
                number: ACCEPTED,
                wave: self.waves[usize::from(b)],
            },
            Err(number) => WaveAnswer { number, wave: 0 },
        }
    }

    /// Clashes of bank b: the filled part of its row, empty if refused.
    pub fn clashes_of(&self, b: u16) -> &[u16] {
        match self.bank_questions(b) {
            Ok(graph) => {
                let b = usize::from(b);
                &self.neighbours[MAX_DEGREE * b..][..graph.degree(b)]
            }
            Err(_) => &[],
        }
    }

    /// How many waves at most, by the clashes.
    pub fn wave_bound(&self) -> BoundAnswer {
        match self.plan_questions() {
            Ok(graph) => BoundAnswer {
                number: ACCEPTED,
                bound: graph.wave_bound(),
            },
            Err(number) => BoundAnswer { number, bound: 0 },
        }
    }

    /// The wave of bank b, read straight off the rule.
    pub fn wave_by_rule(&self, b: u16) -> WaveAnswer {
        let b = usize::from(b);
        let asked = self.plan_questions().and_then(|graph| {
            ask(graph.banks() <= MAX_BANKS_BY_RULE, MANY_BANKS_BY_RULE)?;
            ask(b < graph.banks(), NO_SUCH_BANK)?;
            Ok(graph)
        });
        match asked {
            Ok(graph) => WaveAnswer {
                number: ACCEPTED,
                wave: graph.wave_by_rule(b) as u16,
            },
            Err(number) => WaveAnswer { number, wave: 0 },
        }
    }

    /// All questions of a call about one bank. The answer is the graph.
    fn bank_questions(&self, b: u16) -> Result<Graph, u16> {
        let graph = self.plan_questions()?;
        ask(usize::from(b) < graph.banks(), NO_SUCH_BANK)?;
        Ok(graph)
    }

    /// The questions of a call that uses the plan but neither trail nor moved.
    pub(crate) fn plan_questions(&self) -> Result<Graph, u16> {
        let n = self.tally_banks()?;
        ask(self.plan_fits(n), SLICE_TOO_SHORT)?;
        self.held_graph().ok_or(NO_PLAN)
    }

    /// The tally's bank count, if it is at most 1,024.
    pub(crate) fn tally_banks(&self) -> Result<usize, u16> {
        let n = usize::from(self.tally.banks);
        ask(n <= MAX_BANKS, TOO_MANY_BANKS)?;
        Ok(n)
    }
}

/// The questions on the two banks of an edit. The answer is the new graph.
pub(crate) fn clash_questions(edit: Edit, a: Bank, b: Bank, old: &Graph) -> Result<Graph, u16> {
    let n = old.banks();
    ask(a < n && b < n, NO_SUCH_BANK)?;
    ask(a != b, SAME_BANK)?;
    match edit {
        Edit::Add => {
            ask(!old.clash(a, b), CLASH_EXISTS)?;
            let room = old.degree(a) < MAX_DEGREE && old.degree(b) < MAX_DEGREE;
            ask(room, DEGREE_FULL)?;
            Ok(old.with(a, b))
        }
        Edit::Strike => {
            ask(old.clash(a, b), NO_SUCH_CLASH)?;
            Ok(old.without(a, b))
        }
    }
}

/// The question on the cap: does the rule need no more waves than that for the clashes of the graph?
pub(crate) fn cap_question(graph: &Graph, cap: u16) -> Result<(), u16> {
    let needed = number_of_waves(&graph.waves());
    ask(needed <= usize::from(cap), CAP_PASSED)
}
