//! Journals: the edits of a day, to be run again.

use crate::edit::Edit;
use crate::lent::{Answers, Lent, Read};
use crate::limits::{ENTRY_BYTES, MOST_JOURNAL_BYTES};
use crate::plan::Plan;
use crate::refusal::Refused;
use crate::Bank;
#[cfg(doc)]
use crate::Refusal;

/// Journals.
impl Plan {
    /// The plan of a journal, and how many bytes at its end were left over, fewer than a whole field. The cap is 24.
    ///
    /// # Errors
    ///
    /// The first refusal that is due, with the field that was refused as its [`place`](Refused::place). The fields before
    /// it then make no plan here; [`Lent::replay`] leaves theirs.
    pub fn replay(journal: &[u8]) -> Result<(Plan, usize), Refused> {
        Plan::made(|plan, answers| plan.replay(journal, answers))
    }

    /// A new journal of the plan: its ranks and its clashes.
    ///
    /// # Errors
    ///
    /// [`NoSpace`](Refusal::NoSpace) where that takes more than 60,000 bytes.
    pub fn start_journal(&self) -> Result<Vec<u8>, Refused> {
        self.written(MOST_JOURNAL_BYTES, Read::start_journal)
    }

    /// Adds the clash of a and b and records it at the journal's end. Refused, both stay as they were.
    ///
    /// # Errors
    ///
    /// [`LongList`](Refusal::LongList), [`NoFirstField`](Refusal::NoFirstField), [`WrongField`](Refusal::WrongField),
    /// [`WrongNumber`](Refusal::WrongNumber) or [`LateRank`](Refusal::LateRank) for the journal, then those of
    /// [`add`](Plan::add), then [`NoSpace`](Refusal::NoSpace).
    pub fn add_recorded(
        &mut self,
        a: Bank,
        b: Bank,
        journal: &mut Vec<u8>,
    ) -> Result<Edit, Refused> {
        self.recorded(journal, |plan, bytes, length, answers| {
            plan.add_recorded(a.0, b.0, bytes, length, answers)
        })
    }

    /// Strikes the clash of a and b and records it at the journal's end. Refused, both stay as they were.
    ///
    /// # Errors
    ///
    /// As for [`add_recorded`](Plan::add_recorded), with those of [`strike`](Plan::strike).
    pub fn strike_recorded(
        &mut self,
        a: Bank,
        b: Bank,
        journal: &mut Vec<u8>,
    ) -> Result<Edit, Refused> {
        self.recorded(journal, |plan, bytes, length, answers| {
            plan.strike_recorded(a.0, b.0, bytes, length, answers)
        })
    }

    /// A call that records an edit, with space for its field. The journal keeps its length if the call is refused.
    fn recorded(
        &mut self,
        journal: &mut Vec<u8>,
        call: impl FnOnce(&mut Lent, &mut [u8], usize, &mut Answers) -> u16,
    ) -> Result<Edit, Refused> {
        let mut length = journal.len();
        journal.resize(length + ENTRY_BYTES, 0);
        let edit = self.edit(|plan, answers| {
            let number = call(plan, journal, length, answers);
            if number == 0 {
                length = usize::from(answers.result[2]);
            }
            number
        });
        journal.truncate(length);
        edit
    }
}
