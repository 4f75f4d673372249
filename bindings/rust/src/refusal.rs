//! The refusals of the library's calls, each by the question that is answered no.

use std::error::Error;
use std::fmt;

/// Declares the refusals in the order of their numbers, each with its question and what to do.
macro_rules! refusals {
    ($($name:ident = $number:literal: $question:literal, $advice:literal;)*) => {
        /// Why a call was refused: the first of its questions that is answered no.
        ///
        /// The names, the numbers and the questions are those of `include/wave_plan.h`, which also has the questions
        /// of each call in their order.
        ///
        /// ```
        /// use wave_plan::Refusal;
        ///
        /// let refusal = Refusal::of(6).unwrap();
        /// assert_eq!(refusal, Refusal::ClashThere);
        /// assert_eq!(refusal.number(), 6);
        /// assert_eq!(refusal.question(), "Are the two banks free of a clash so far?");
        /// assert_eq!(refusal.advice(), "nothing, they clash already");
        /// ```
        #[derive(Clone, Copy, Debug, PartialEq, Eq, PartialOrd, Ord, Hash)]
        #[repr(u16)]
        pub enum Refusal {
            $(
                #[doc = concat!($number, ": ", $question)]
                $name = $number,
            )*
        }

        impl Refusal {
            /// All refusals, by number.
            pub const ALL: &'static [Refusal] = &[$(Refusal::$name),*];

            /// The question that was answered no.
            pub fn question(self) -> &'static str {
                match self {
                    $(Refusal::$name => $question,)*
                }
            }

            /// What to do about it, as words that follow "to do:".
            pub fn advice(self) -> &'static str {
                match self {
                    $(Refusal::$name => $advice,)*
                }
            }
        }
    };
}

refusals! {
    TooManyBanks = 1: "Is the bank count at most 1,024?",
        "split the depot";
    ShortSlice = 2: "Is the memory lent to the call long enough?",
        "lend more; open a shelf for as many banks as the plan has";
    NoPlan = 3: "Does the memory hold a plan, and each used place of the shelf one of as many banks?",
        "open a plan, or read the list again; open the shelf";
    NoSuchBank = 4: "Is each named bank below the bank count?",
        "correct the bank, or open a plan of more banks";
    SameBank = 5: "Are the two banks different?",
        "name two different banks";
    ClashThere = 6: "Are the two banks free of a clash so far?",
        "nothing, they clash already";
    NoClash = 7: "Do the two banks clash?",
        "nothing, or look for the edit that should have added the clash";
    RowFull = 8: "Have both banks fewer than 23 clashes?",
        "strike another clash first, no bank can have more";
    LongList = 9: "Has the list, or the journal, at most 60,000 bytes?",
        "split it";
    NoFirstRow = 10: "Is row 1, or row 2 after V 2, an N row of the stated form?",
        "write it; a first row that starts with V is V 2 and nothing more";
    UnreadableRow = 11: "Is the row one of the four forms?",
        "correct it: one space between parts, at most four digits";
    ShortOutput = 12: "Is the output at least as long as the sheet or the poster?",
        "lend more";
    NoFirstField = 13: "Is the journal within the slice, and its first field whole and of the stated form?",
        "start a new journal";
    WrongField = 14: "Are the field's tag and length right, and a rank at most 9,999?",
        "cut the journal before that field";
    NoSpace = 15: "Is there space in the slice, and in 60,000 bytes, for what is to be written?",
        "lend more; a journal that is full ends there";
    UnknownName = 16: "Is the name MORNING, NOON or CLOSE?",
        "use one of the three";
    NothingKept = 17: "Is a plan kept under the name?",
        "keep a plan under it first";
    LateRank = 18: "Does the rank come before the first edit?",
        "set ranks before the first edit: K rows right after the N row, K fields before the edits";
    CapOutOfSpan = 19: "Is the cap from 1 to 24?",
        "set another";
    CapPassed = 20: "Is the cap not below the waves in use, and not below those that the edit would need?",
        "raise the cap, or strike or add another clash first";
    WrongNumber = 21: "Is the entry's number one above the last, the first being 1?",
        "cut the journal before that field";
    ManyBanksByRule = 22: "Is the bank count at most 16, where a wave is read straight off the rule?",
        "ask for the kept wave, or look the bank up on the sheet";
    DRetired = 23: "Is the row of a list that starts with V 2 no D row?",
        "write a - row for each clash that goes";
    CrewSpan = 24: "Are the couriers from 1 to 64, and the steps they may take at most 1,024?",
        "give another number";
    NoCrew = 25: "Does some crew of 1 to 64 couriers end within so many steps?",
        "allow more steps";
    NoSheet = 26: "Is it a sheet with each of the plan's banks once, no empty wave and the plan's foot?",
        "look at the line that is named";
    SheetClash = 27: "Are clashing banks in different waves, and the waves no more than the plan's?",
        "move one of the two banks that are named, or use the planner's sheet";
}

impl Refusal {
    /// Its number.
    pub fn number(self) -> u16 {
        self as u16
    }

    /// The refusal of a number, if there is one.
    pub fn of(number: u16) -> Option<Refusal> {
        Refusal::ALL.iter().copied().find(|r| r.number() == number)
    }
}

/// A refused call. Nothing was changed by it.
///
/// ```
/// use wave_plan::{Plan, Refusal};
///
/// let refused = Plan::read_list("N 4\n+ 0 1\n+ 0 4\n").unwrap_err();
/// assert_eq!(refused.refusal, Refusal::NoSuchBank);
/// assert_eq!(refused.place, 3);
/// assert_eq!(
///     refused.to_string(),
///     "refused 4 at 3: Is each named bank below the bank count? No. \
///      To do: correct the bank, or open a plan of more banks"
/// );
/// ```
#[derive(Clone, Copy, Debug, PartialEq, Eq, Hash)]
pub struct Refused {
    /// The question that was answered no.
    pub refusal: Refusal,
    /// The row of a list or the field of a journal that was refused, counted from 1; 0 where there is none.
    pub place: u16,
}

impl Refused {
    /// The number of the refusal.
    pub fn number(&self) -> u16 {
        self.refusal.number()
    }
}

/// A refusal that has no place.
impl From<Refusal> for Refused {
    fn from(refusal: Refusal) -> Refused {
        Refused { refusal, place: 0 }
    }
}

impl fmt::Display for Refused {
    fn fmt(&self, f: &mut fmt::Formatter<'_>) -> fmt::Result {
        write!(f, "refused {}", self.number())?;
        if self.place > 0 {
            write!(f, " at {}", self.place)?;
        }
        let (question, advice) = (self.refusal.question(), self.refusal.advice());
        write!(f, ": {question} No. To do: {advice}")
    }
}

impl Error for Refused {}

/// The refusal of a number, if it is one.
pub(crate) fn answer(number: u16) -> Result<(), Refused> {
    answer_at(number, 0)
}

/// The refusal of a number at a row or a field, if it is one.
pub(crate) fn answer_at(number: u16, place: u16) -> Result<(), Refused> {
    match number {
        0 => Ok(()),
        number => Err(Refused {
            refusal: Refusal::of(number).expect("a number that the header names"),
            place,
        }),
    }
}
