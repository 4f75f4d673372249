//! A plan that owns its memory.

use crate::edit::{banks, Edit, OwnedAnswers};
use crate::lent::{Answers, Lent, Read};
use crate::limits::{COUNT_CELLS, MOST_BANKS, MOST_RANK, ROW_CELLS, TALLY_CELLS};
use crate::refusal::{answer, answer_at, Refusal, Refused};
use crate::{Bank, Wave};
use std::fmt;

/// A plan and the memory that it stands in.
///
/// After each call its waves are those of the rule: the bank with the most clashes first, equal ones by rank and then by
/// number, each in the lowest wave that no earlier clashing bank holds. A refused call changes nothing.
///
/// Only the library's calls write the memory, and [`set_rank`](Plan::set_rank) before the first clash. So it always holds
/// a plan, and a call that reads it is refused for its arguments alone; [`sheet`](Plan::sheet), [`poster`](Plan::poster)
/// and [`wave_bound`](Plan::wave_bound) have none, and answer a `Result` since the library may refuse any call.
///
/// Plans are equal if they have the same banks, clashes, ranks and cap; then they have the same waves.
#[derive(Clone, PartialEq, Eq)]
pub struct Plan {
    neighbours: Vec<u16>,
    degrees: Vec<u16>,
    waves: Vec<u16>,
    counts: Vec<u16>,
    ranks: Vec<u16>,
    /// Banks, clashes, waves, cap.
    tally: [u16; TALLY_CELLS],
}

/// Making a plan.
impl Plan {
    /// A plan of n banks without a clash, all of rank 0, the cap 24.
    ///
    /// # Errors
    ///
    /// [`TooManyBanks`](Refusal::TooManyBanks) above 1,024.
    pub fn open(n: u16) -> Result<Plan, Refused> {
        let mut plan = Plan::memory_for(n.min(MOST_BANKS));
        answer(plan.lent().open(n))?;
        Ok(plan)
    }

    /// The plan of a list: rows `N n`, `K b r`, `+ a b`, `- a b` and `D b`, as the README describes them. The last row
    /// counts with or without a line feed.
    ///
    /// ```
    /// # fn main() -> Result<(), wave_plan::Refused> {
    /// let plan = wave_plan::Plan::read_list("N 4\n+ 0 1\n+ 1 2\n+ 2 3\n+ 0 3")?;
    /// assert_eq!(plan.sheet()?, "WAVES 2\nA 0 2\nB 1 3\nTOTAL 4 4\n");
    /// # Ok(())
    /// # }
    /// ```
    ///
    /// # Errors
    ///
    /// The first refusal that is due, with the row that was refused as its [`place`](Refused::place). The rows before it
    /// then make no plan here; [`Lent::read_list`] leaves theirs.
    pub fn read_list(list: impl AsRef<[u8]>) -> Result<Plan, Refused> {
        let (plan, _) = Plan::made(|plan, answers| plan.read_list(list.as_ref(), answers))?;
        Ok(plan)
    }

    /// The plan that a call makes from a text, and the call's second result.
    pub(crate) fn made(
        call: impl FnOnce(&mut Lent, &mut Answers) -> u16,
    ) -> Result<(Plan, usize), Refused> {
        let mut plan = Plan::memory_for(MOST_BANKS);
        let mut answers = OwnedAnswers::of(MOST_BANKS);
        let number = call(&mut plan.lent(), &mut answers.lent());
        let [place, second, _] = answers.result;
        answer_at(number, place)?;
        plan.give_back_memory();
        Ok((plan, usize::from(second)))
    }
}

/// Changing a plan.
impl Plan {
    /// Adds the clash of a and b.
    ///
    /// # Errors
    ///
    /// The first that is due of [`NoSuchBank`](Refusal::NoSuchBank), [`SameBank`](Refusal::SameBank),
    /// [`ClashThere`](Refusal::ClashThere), [`RowFull`](Refusal::RowFull) and [`CapPassed`](Refusal::CapPassed).
    pub fn add(&mut self, a: Bank, b: Bank) -> Result<Edit, Refused> {
        self.edit(|plan, answers| plan.add(a.0, b.0, answers))
    }

    /// Strikes the clash of a and b. That can take a wave more, since it changes who comes first.
    ///
    /// # Errors
    ///
    /// The first that is due of [`NoSuchBank`](Refusal::NoSuchBank), [`SameBank`](Refusal::SameBank),
    /// [`NoClash`](Refusal::NoClash) and [`CapPassed`](Refusal::CapPassed).
    pub fn strike(&mut self, a: Bank, b: Bank) -> Result<Edit, Refused> {
        self.edit(|plan, answers| plan.strike(a.0, b.0, answers))
    }

    /// Sets the cap, from 1 to 24: an edit, add or strike, that would need more waves is refused from now on.
    ///
    /// ```
    /// # fn main() -> Result<(), wave_plan::Refused> {
    /// use wave_plan::{Bank, Plan, Refusal};
    ///
    /// let mut plan = Plan::read_list("N 3\n+ 0 1\n+ 1 2\n")?;
    /// plan.set_cap(2)?;
    /// let refused = plan.add(Bank(0), Bank(2)).unwrap_err();
    /// assert_eq!(refused.refusal, Refusal::CapPassed);
    /// # Ok(())
    /// # }
    /// ```
    ///
    /// # Errors
    ///
    /// [`CapOutOfSpan`](Refusal::CapOutOfSpan), and [`CapPassed`](Refusal::CapPassed) for one below the waves in use.
    pub fn set_cap(&mut self, cap: u16) -> Result<(), Refused> {
        answer(self.lent().set_cap(cap))
    }

    /// Sets the rank of bank b, from 0 to 9,999, in a plan without clashes. Of two banks with as many clashes the one of
    /// the smaller rank comes first.
    ///
    /// ```
    /// # fn main() -> Result<(), wave_plan::Refused> {
    /// use wave_plan::{Bank, Plan};
    ///
    /// let mut plan = Plan::open(2)?;
    /// plan.set_rank(Bank(0), 10)?;
    /// plan.add(Bank(0), Bank(1))?;
    /// assert_eq!(plan.sheet()?, "WAVES 2\nA 1\nB 0\nTOTAL 2 1\n");
    /// # Ok(())
    /// # }
    /// ```
    ///
    /// # Errors
    ///
    /// As for a K row, [`LateRank`](Refusal::LateRank) where there are clashes, then
    /// [`NoSuchBank`](Refusal::NoSuchBank); and [`NoPlan`](Refusal::NoPlan) for a rank above 9,999, with which the memory
    /// would hold no plan.
    pub fn set_rank(&mut self, b: Bank, rank: u16) -> Result<(), Refused> {
        if self.clashes() > 0 {
            return Err(Refusal::LateRank.into());
        }
        let cell = self.ranks.get_mut(usize::from(b.0));
        let cell = cell.ok_or(Refusal::NoSuchBank)?;
        if rank > MOST_RANK {
            return Err(Refusal::NoPlan.into());
        }
        *cell = rank;
        Ok(())
    }

    /// A call that changes the plan, and how far it reached.
    pub(crate) fn edit(
        &mut self,
        call: impl FnOnce(&mut Lent, &mut Answers) -> u16,
    ) -> Result<Edit, Refused> {
        let mut answers = OwnedAnswers::of(self.banks());
        answer(call(&mut self.lent(), &mut answers.lent()))?;
        Ok(answers.edit())
    }
}

/// Asking about a plan.
impl Plan {
    /// How many banks the plan has.
    pub fn banks(&self) -> u16 {
        self.tally[0]
    }

    /// How many clashes the plan has.
    pub fn clashes(&self) -> u16 {
        self.tally[1]
    }

    /// How many waves the plan has.
    pub fn wave_count(&self) -> u16 {
        self.tally[2]
    }

    /// The cap: the most waves that an edit may lead to.
    pub fn cap(&self) -> u16 {
        self.tally[3]
    }

    /// The waves by bank number.
    pub fn waves(&self) -> Vec<Wave> {
        self.waves.iter().copied().map(Wave).collect()
    }

    /// The ranks by bank number.
    pub fn ranks(&self) -> &[u16] {
        &self.ranks
    }

    /// The banks that clash with bank b, ascending; none if there is no such bank. That is [`clashes_of`](Plan::clashes_of)
    /// without its questions, the test of all cells included.
    pub fn neighbours_of(&self, b: Bank) -> Vec<Bank> {
        let at = usize::from(b.0);
        match self.degrees.get(at) {
            Some(&degree) => banks(&self.neighbours[ROW_CELLS * at..][..usize::from(degree)]),
            None => Vec::new(),
        }
    }

    /// The wave of bank b.
    ///
    /// # Errors
    ///
    /// [`NoSuchBank`](Refusal::NoSuchBank).
    pub fn wave_of(&self, b: Bank) -> Result<Wave, Refused> {
        let [wave] = self.ask(|plan, result| plan.wave_of(b.0, result))?;
        Ok(Wave(wave))
    }

    /// The banks that clash with bank b, ascending.
    ///
    /// # Errors
    ///
    /// [`NoSuchBank`](Refusal::NoSuchBank).
    pub fn clashes_of(&self, b: Bank) -> Result<Vec<Bank>, Refused> {
        let row = self.ask(|plan, result| plan.clashes_of(b.0, result))?;
        let [start, length] = row.map(usize::from);
        Ok(banks(&self.neighbours[start..start + length]))
    }

    /// How many waves the plan has at most, from its numbers of clashes alone (Welsh and Powell).
    ///
    /// # Errors
    ///
    /// None is due.
    pub fn wave_bound(&self) -> Result<u16, Refused> {
        let [bound] = self.ask(Read::wave_bound)?;
        Ok(bound)
    }

    /// The wave of bank b in a plan of at most 16 banks, read straight off the rule and not from the kept waves.
    ///
    /// # Errors
    ///
    /// [`ManyBanksByRule`](Refusal::ManyBanksByRule), then [`NoSuchBank`](Refusal::NoSuchBank).
    pub fn wave_by_rule(&self, b: Bank) -> Result<Wave, Refused> {
        let [wave] = self.ask(|plan, result| plan.wave_by_rule(b.0, result))?;
        Ok(Wave(wave))
    }

    /// A call that reads the plan, and its results.
    pub(crate) fn ask<'a, const N: usize>(
        &'a self,
        call: impl FnOnce(Read<'a>, &mut [u16]) -> u16,
    ) -> Result<[u16; N], Refused> {
        let mut result = [0; N];
        answer(call(self.read(), &mut result))?;
        Ok(result)
    }
}

/// Its memory: the cells of its banks and no others.
impl Plan {
    /// Memory for a plan of n banks, all cells 0.
    fn memory_for(n: u16) -> Plan {
        let n = usize::from(n);
        Plan {
            neighbours: vec![0; ROW_CELLS * n],
            degrees: vec![0; n],
            waves: vec![0; n],
            counts: vec![0; COUNT_CELLS * n],
            ranks: vec![0; n],
            tally: [0; TALLY_CELLS],
        }
    }

    /// Gives back the memory beyond that of the plan's banks.
    fn give_back_memory(&mut self) {
        let n = usize::from(self.banks());
        let cut = |cells: &mut Vec<u16>, length| {
            cells.truncate(length);
            cells.shrink_to_fit();
        };
        cut(&mut self.neighbours, ROW_CELLS * n);
        cut(&mut self.degrees, n);
        cut(&mut self.waves, n);
        cut(&mut self.counts, COUNT_CELLS * n);
        cut(&mut self.ranks, n);
    }

    pub(crate) fn read(&self) -> Read<'_> {
        Read {
            neighbours: &self.neighbours,
            degrees: &self.degrees,
            waves: &self.waves,
            counts: &self.counts,
            ranks: &self.ranks,
            tally: &self.tally,
        }
    }

    pub(crate) fn lent(&mut self) -> Lent<'_> {
        Lent {
            neighbours: &mut self.neighbours,
            degrees: &mut self.degrees,
            waves: &mut self.waves,
            counts: &mut self.counts,
            ranks: &mut self.ranks,
            tally: &mut self.tally,
        }
    }
}

/// The tally alone: a plan has up to 51,200 cells.
impl fmt::Debug for Plan {
    fn fmt(&self, f: &mut fmt::Formatter<'_>) -> fmt::Result {
        f.debug_struct("Plan")
            .field("banks", &self.banks())
            .field("clashes", &self.clashes())
            .field("waves", &self.wave_count())
            .field("cap", &self.cap())
            .finish_non_exhaustive()
    }
}
