//! Sheets and posters, and sheets from anybody.

use crate::lent::Read;
use crate::limits::{MOST_POSTER_BYTES, MOST_SHEET_BYTES};
use crate::plan::Plan;
use crate::refusal::{answer, Refusal, Refused};
use crate::Bank;
use std::error::Error;
use std::fmt;

/// Sheets and posters.
impl Plan {
    /// The sheet: its waves, a line for each, and a foot with the numbers of banks and clashes.
    ///
    /// # Errors
    ///
    /// None is due.
    pub fn sheet(&self) -> Result<String, Refused> {
        let sheet = self.written(MOST_SHEET_BYTES, Read::write_sheet)?;
        Ok(String::from_utf8(sheet).expect("a sheet is ASCII"))
    }

    /// The gate poster: the sheet's waves in pages of 50 lines of 40 characters.
    ///
    /// # Errors
    ///
    /// None is due.
    pub fn poster(&self) -> Result<String, Refused> {
        let poster = self.written(MOST_POSTER_BYTES, Read::write_poster)?;
        Ok(String::from_utf8(poster).expect("a poster is ASCII"))
    }

    /// Checks a sheet from anybody. It is accepted exactly if it names every bank once, has no empty wave, ends in this
    /// plan's foot, keeps clashing banks in different waves and has no more waves than the plan. Its waves need not be the
    /// rule's.
    ///
    /// ```
    /// # fn main() -> Result<(), wave_plan::Refused> {
    /// use wave_plan::{Bank, Plan, WrongSheet};
    ///
    /// let plan = Plan::read_list("N 3\n+ 0 1\n+ 1 2\n")?;
    /// assert_eq!(plan.check_sheet(plan.sheet()?), Ok(()));
    /// assert_eq!(plan.check_sheet("WAVES 2\nA 0 2\nB 1\nTOTAL 3 2\n"), Ok(()));
    /// let wrong = plan.check_sheet("WAVES 2\nA 0\nB 1 2\nTOTAL 3 2\n");
    /// assert_eq!(wrong, Err(WrongSheet::Clash(Bank(1), Bank(2))));
    /// # Ok(())
    /// # }
    /// ```
    ///
    /// # Errors
    ///
    /// What is wrong with it.
    pub fn check_sheet(&self, sheet: impl AsRef<[u8]>) -> Result<(), WrongSheet> {
        let mut result = [0; 3];
        let number = self.read().check_sheet(sheet.as_ref(), &mut result);
        let [line, first, second] = result;
        answer(number).map_err(|refused| match refused.refusal {
            Refusal::NoSheet => WrongSheet::NoSheet { line },
            Refusal::SheetClash if first == second => WrongSheet::ManyWaves,
            Refusal::SheetClash => WrongSheet::Clash(Bank(first), Bank(second)),
            _ => WrongSheet::Refused(refused),
        })
    }

    /// What a call writes of the plan, at most so many bytes.
    pub(crate) fn written<'a>(
        &'a self,
        most: usize,
        call: impl FnOnce(Read<'a>, &mut [u8], &mut [u16]) -> u16,
    ) -> Result<Vec<u8>, Refused> {
        let mut bytes = vec![0; most];
        let [length] = self.ask(|plan, result| call(plan, &mut bytes, result))?;
        bytes.truncate(usize::from(length));
        Ok(bytes)
    }
}

/// Why [`Plan::check_sheet`](Plan::check_sheet) does not accept a sheet.
#[derive(Clone, Copy, Debug, PartialEq, Eq)]
pub enum WrongSheet {
    /// The bytes are no sheet of the plan (26).
    NoSheet {
        /// The first line at fault, from 1.
        line: u16,
    },
    /// Two banks that clash stand in one wave (27): the pair with the lowest first bank, then the lowest second.
    Clash(Bank, Bank),
    /// It has more waves than the plan (27).
    ManyWaves,
    /// The call was refused before the sheet was read.
    Refused(Refused),
}

impl WrongSheet {
    /// The refusal that it is.
    pub fn refusal(&self) -> Refusal {
        match self {
            WrongSheet::NoSheet { .. } => Refusal::NoSheet,
            WrongSheet::Clash(..) | WrongSheet::ManyWaves => Refusal::SheetClash,
            WrongSheet::Refused(refused) => refused.refusal,
        }
    }
}

impl fmt::Display for WrongSheet {
    fn fmt(&self, f: &mut fmt::Formatter<'_>) -> fmt::Result {
        match self {
            WrongSheet::NoSheet { line } => {
                write!(f, "refused 26: line {line} is wrong for this plan")
            }
            WrongSheet::Clash(a, b) => {
                write!(f, "refused 27: banks {a} and {b} clash in one wave")
            }
            WrongSheet::ManyWaves => write!(f, "refused 27: more waves than the plan has"),
            WrongSheet::Refused(refused) => refused.fmt(f),
        }
    }
}

impl Error for WrongSheet {}
