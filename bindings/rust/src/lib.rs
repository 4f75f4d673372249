//! Wave plans of a locker depot.
//!
//! A depot empties its locker banks in waves. Two banks that clash never share a wave. The rule is degree-ordered greedy
//! colouring: the bank with the most clashes comes first, equal ones by rank and then by number, and each gets the lowest
//! wave that no earlier clashing bank holds. This package is the safe wrapper of the static library `wave_plan`, whose
//! calls are proved: after every accepted call the waves are the rule's, and a refused one changes nothing.
//!
//! ```
//! use wave_plan::{Bank, Plan, Refused};
//!
//! fn main() -> Result<(), Refused> {
//!     let mut plan = Plan::open(4)?;
//!     for (a, b) in [(0, 1), (1, 2), (2, 3), (0, 3)] {
//!         plan.add(Bank(a), Bank(b))?;
//!     }
//!     assert_eq!(plan.sheet()?, "WAVES 2\nA 0 2\nB 1 3\nTOTAL 4 4\n");
//!
//!     let edit = plan.strike(Bank(0), Bank(3))?;
//!     assert_eq!(edit.moved, [Bank(1), Bank(2), Bank(0), Bank(3)]);
//!     assert_eq!(plan.wave_of(Bank(0))?.letter(), 'B');
//!     Ok(())
//! }
//! ```
//!
//! The folder `examples` has programs: the sheet of a list or its refusal, a journal that is cut and replayed, a kept plan
//! that is come back to.
//!
//! # Memory
//!
//! A [`Plan`] owns the memory that it lends to the library: 50 cells of 16 bits for each bank, at most 1,024 banks, so
//! 100 KB at most. Nothing is shared between plans, and the library keeps nothing: a plan can be cloned, sent to another
//! thread, and read from several at once. A call that reads takes `&self`, one that changes the plan `&mut self`. A call
//! needs up to 56 KB of stack; see to that where a thread is started with less than the default.
//!
//! Who keeps the cells elsewhere, in a file that is mapped, say, lends them to the calls in [`lent`].
//!
//! # Refusals
//!
//! A call asks its questions in a fixed order, and the first that is answered no is its refusal: a [`Refused`] with a
//! [`Refusal`], and with the row or the field where a list or a journal was refused. The plan is then as it was.
//!
//! ```
//! use wave_plan::{Bank, Plan, Refusal};
//!
//! let mut plan = Plan::open(4).unwrap();
//! let refused = plan.add(Bank(1), Bank(1)).unwrap_err();
//! assert_eq!(refused.refusal, Refusal::SameBank);
//! assert_eq!(refused.number(), 5);
//! assert_eq!(refused.refusal.question(), "Are the two banks different?");
//! assert_eq!(plan, Plan::open(4).unwrap());
//! ```
//!
//! # Journals
//!
//! A journal is bytes that the caller owns and puts where they are safe. [`Plan::start_journal`] begins one with the
//! present plan; [`Plan::add_recorded`] and [`Plan::strike_recorded`] append the field of an accepted edit; [`Plan::replay`]
//! makes the plan again. A journal that was cut replays its whole fields. Cut the bytes left over off before the next edit
//! is recorded in it. The cap is not in it.
//!
//! ```
//! # fn main() -> Result<(), wave_plan::Refused> {
//! use wave_plan::{Bank, Plan};
//!
//! let mut plan = Plan::open(3)?;
//! let mut journal = plan.start_journal()?;
//! plan.add_recorded(Bank(0), Bank(1), &mut journal)?;
//! let whole = journal.len();
//! plan.add_recorded(Bank(1), Bank(2), &mut journal)?;
//! assert_eq!(Plan::replay(&journal)?, (plan, 0));
//!
//! journal.pop();
//! let (before, left_over) = Plan::replay(&journal)?;
//! journal.truncate(journal.len() - left_over);
//! assert_eq!((before.clashes(), journal.len()), (1, whole));
//! # Ok(())
//! # }
//! ```
//!
//! # Kept plans
//!
//! A [`Shelf`] owns the memory of three kept plans of one bank count. [`Plan::keep`] copies a plan there under a [`Name`],
//! and [`Plan::come_back`] makes the plan equal to the kept one, its cap included. A journal ends where a plan comes back.
//!
//! ```
//! # fn main() -> Result<(), wave_plan::Refused> {
//! use wave_plan::{Bank, Name, Plan, Shelf};
//!
//! let mut plan = Plan::open(3)?;
//! let mut shelf = Shelf::open(plan.banks())?;
//! plan.keep(&mut shelf, Name::Morning)?;
//! plan.add(Bank(1), Bank(2))?;
//! let moved = plan.come_back(&shelf, Name::Morning)?;
//! assert_eq!((plan, moved), (Plan::open(3)?, vec![Bank(2)]));
//! # Ok(())
//! # }
//! ```
//!
//! # Why a bank moved
//!
//! One edit can move banks that it does not name. [`LastEdit`] says of each bank why the edit took it up or left it alone, and
//! which banks hold the waves below its own.
//!
//! # Banks and waves
//!
//! A bank number where a wave number belongs does not compile, nor the other way round:
//!
//! ```compile_fail,E0308
//! use wave_plan::{Bank, Plan, Wave};
//! let mut plan = Plan::open(2).unwrap();
//! plan.add(Bank(0), Wave(1)).unwrap();
//! ```
//!
//! # Linking
//!
//! The build takes `libwave_plan.a` from the folder in the environment variable `WAVE_PLAN_LIB_DIR`, or else from
//! `target/staticlib` of the repository, where `make lib` leaves it.

#![deny(unsafe_code)]
#![warn(missing_docs)]

mod crew;
mod edit;
mod journal;
#[allow(unsafe_code)]
pub mod lent;
mod limits;
mod numbers;
mod plan;
mod raw;
mod refusal;
mod sheet;
mod shelf;
mod why;

pub use crew::Day;
pub use edit::Edit;
pub use numbers::{Bank, Wave};
pub use plan::Plan;
pub use refusal::{Refusal, Refused};
pub use sheet::WrongSheet;
pub use shelf::{Name, Shelf};
pub use why::{Choice, Explanation, Kind, LastEdit, Order, Place, Reason};
