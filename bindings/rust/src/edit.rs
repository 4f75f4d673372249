//! What an edit leaves beside the plan: the banks that it took up and those that it moved.

use crate::lent::Answers;
use crate::limits::RECORD_RESULTS;
use crate::Bank;

/// How far an accepted edit reached.
///
/// ```
/// # fn main() -> Result<(), wave_plan::Refused> {
/// use wave_plan::{Bank, Plan};
///
/// // Banks 0 and 4 clash, and so on; bank 0 stands in wave B.
/// let mut plan = Plan::read_list("N 6\n+ 0 4\n+ 0 2\n+ 2 3\n+ 1 3\n+ 1 5\n+ 2 5\n")?;
/// assert_eq!(plan.wave_of(Bank(0))?.letter(), 'B');
///
/// // The row about banks 2 and 5 moves bank 0 to wave A.
/// let edit = plan.strike(Bank(2), Bank(5))?;
/// assert_eq!(edit.trail, [Bank(0), Bank(2), Bank(3), Bank(4), Bank(5)]);
/// assert_eq!(edit.moved, [Bank(0), Bank(2), Bank(3), Bank(4)]);
/// assert_eq!(plan.wave_of(Bank(0))?.letter(), 'A');
/// # Ok(())
/// # }
/// ```
#[derive(Clone, Debug, PartialEq, Eq)]
pub struct Edit {
    /// The banks taken up, each once, in the new order: the two of the edit, each neighbour whose order towards one of
    /// them turned over, and each bank later than a clashing bank whose wave changed.
    pub trail: Vec<Bank>,
    /// The banks whose wave changed, each once, in the new order.
    pub moved: Vec<Bank>,
}

/// Memory for what a call that changes a plan answers beside its number.
pub(crate) struct OwnedAnswers {
    trail: Vec<u16>,
    moved: Vec<u16>,
    pub(crate) result: [u16; RECORD_RESULTS],
}

impl OwnedAnswers {
    /// Memory for a plan of n banks.
    pub(crate) fn of(n: u16) -> OwnedAnswers {
        OwnedAnswers {
            trail: vec![0; usize::from(n)],
            moved: vec![0; usize::from(n)],
            result: [0; RECORD_RESULTS],
        }
    }

    pub(crate) fn lent(&mut self) -> Answers<'_> {
        Answers {
            trail: &mut self.trail,
            moved: &mut self.moved,
            result: &mut self.result,
        }
    }

    /// What an accepted edit left. The results are moved count and trail count.
    pub(crate) fn edit(&self) -> Edit {
        let [moved, trail, _] = self.result.map(usize::from);
        Edit {
            trail: banks(&self.trail[..trail]),
            moved: banks(&self.moved[..moved]),
        }
    }
}

/// The banks of cells.
pub(crate) fn banks(cells: &[u16]) -> Vec<Bank> {
    cells.iter().copied().map(Bank).collect()
}
