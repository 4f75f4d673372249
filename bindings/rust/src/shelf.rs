//! A shelf that owns its memory, and the names under which plans are kept in it.

use crate::lent::open_shelf;
use crate::limits::{place_cells, MOST_BANKS, PLACES};
use crate::plan::Plan;
use crate::refusal::{answer, Refusal, Refused};
use crate::Bank;
use std::fmt;
use std::str::FromStr;

/// A name under which a plan is kept. As text it is `MORNING`, `NOON` or `CLOSE`.
///
/// ```
/// use wave_plan::{Name, Refusal};
///
/// assert_eq!("NOON".parse(), Ok(Name::Noon));
/// assert_eq!(Name::Noon.to_string(), "NOON");
/// let unknown = "EVENING".parse::<Name>().unwrap_err();
/// assert_eq!(unknown.refusal, Refusal::UnknownName);
/// ```
#[derive(Clone, Copy, Debug, PartialEq, Eq, Hash)]
pub enum Name {
    /// `MORNING`
    Morning,
    /// `NOON`
    Noon,
    /// `CLOSE`
    Close,
}

impl Name {
    /// The names in the order of their places.
    pub const ALL: [Name; PLACES] = [Name::Morning, Name::Noon, Name::Close];

    /// The name as the library takes it: eight bytes, filled up with spaces.
    pub fn bytes(self) -> &'static [u8; 8] {
        match self {
            Name::Morning => b"MORNING ",
            Name::Noon => b"NOON    ",
            Name::Close => b"CLOSE   ",
        }
    }

    fn text(self) -> &'static str {
        match self {
            Name::Morning => "MORNING",
            Name::Noon => "NOON",
            Name::Close => "CLOSE",
        }
    }
}

impl fmt::Display for Name {
    fn fmt(&self, f: &mut fmt::Formatter<'_>) -> fmt::Result {
        f.pad(self.text())
    }
}

impl FromStr for Name {
    type Err = Refused;

    /// The name of a text without spaces; any other is refused with [`UnknownName`](Refusal::UnknownName).
    fn from_str(text: &str) -> Result<Name, Refused> {
        let named = Name::ALL.into_iter().find(|name| name.text() == text);
        named.ok_or_else(|| Refusal::UnknownName.into())
    }
}

/// The places of three plans, one for each [`Name`], with the memory that they stand in.
///
/// It is laid out for plans of one bank count. [`Plan::keep`](Plan::keep) copies a plan into it, and
/// [`Plan::come_back`](Plan::come_back) copies one out of it.
#[derive(Clone)]
pub struct Shelf {
    banks: u16,
    pub(crate) cells: Vec<u16>,
}

impl Shelf {
    /// A shelf for plans of n banks, with nothing kept.
    ///
    /// # Errors
    ///
    /// [`TooManyBanks`](Refusal::TooManyBanks) above 1,024.
    pub fn open(n: u16) -> Result<Shelf, Refused> {
        let mut cells = vec![0; PLACES * place_cells(n.min(MOST_BANKS))];
        answer(open_shelf(&mut cells, n))?;
        Ok(Shelf { banks: n, cells })
    }

    /// Of how many banks its plans are.
    pub fn banks(&self) -> u16 {
        self.banks
    }

    /// Refuses plans of fewer banks: their places would lie across those of this shelf. Plans of more banks are refused
    /// by the library, which finds too few cells (2).
    pub(crate) fn refuse_fewer(&self, n: u16) -> Result<(), Refused> {
        if n < self.banks {
            return Err(Refusal::NoPlan.into());
        }
        Ok(())
    }
}

/// The bank count: a shelf has up to 150,000 cells.
impl fmt::Debug for Shelf {
    fn fmt(&self, f: &mut fmt::Formatter<'_>) -> fmt::Result {
        f.debug_struct("Shelf")
            .field("banks", &self.banks)
            .finish_non_exhaustive()
    }
}

/// Kept plans.
impl Plan {
    /// Keeps the plan and its cap under a name, in the place of what was kept there before.
    ///
    /// # Errors
    ///
    /// [`ShortSlice`](Refusal::ShortSlice) where the shelf is for fewer banks than the plan has, and
    /// [`NoPlan`](Refusal::NoPlan) where it is for more.
    pub fn keep(&self, shelf: &mut Shelf, name: Name) -> Result<(), Refused> {
        shelf.refuse_fewer(self.banks())?;
        answer(self.read().keep(&mut shelf.cells, name.bytes()))
    }

    /// Comes back to the plan and the cap kept under a name. The answer is the banks whose wave differs, ascending. A
    /// journal of the plan left ends here: start a new one.
    ///
    /// # Errors
    ///
    /// Those of [`keep`](Plan::keep), then [`NothingKept`](Refusal::NothingKept).
    pub fn come_back(&mut self, shelf: &Shelf, name: Name) -> Result<Vec<Bank>, Refused> {
        shelf.refuse_fewer(self.banks())?;
        let edit =
            self.edit(|plan, answers| plan.come_back(&shelf.cells, name.bytes(), answers))?;
        Ok(edit.moved)
    }
}
