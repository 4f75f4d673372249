//! The library's calls on lent slices, as `include/wave_plan.h` describes them: for programs that keep
//! the memory of a plan themselves. Other programs use [`Plan`](crate::Plan), which owns it.
//!
//! A call returns the number of its refusal, 0 for accepted, and leaves its further answers in the
//! result slice. The slices may have any content, and be longer or shorter than the call needs: memory
//! that holds no plan gets 3, a short slice gets 2.
//!
//! ```
//! use wave_plan::lent::{Answers, Lent};
//!
//! let (mut neighbours, mut counts) = ([0; 23 * 2], [0; 24 * 2]);
//! let (mut degrees, mut waves, mut ranks, mut tally) = ([0; 2], [0; 2], [0; 2], [0; 4]);
//! let (mut trail, mut moved, mut result) = ([0; 2], [0; 2], [0; 2]);
//! let mut plan = Lent {
//!     neighbours: &mut neighbours,
//!     degrees: &mut degrees,
//!     waves: &mut waves,
//!     counts: &mut counts,
//!     ranks: &mut ranks,
//!     tally: &mut tally,
//! };
//! let mut answers = Answers {
//!     trail: &mut trail,
//!     moved: &mut moved,
//!     result: &mut result,
//! };
//! assert_eq!(plan.open(2), 0);
//! assert_eq!(plan.add(0, 1, &mut answers), 0);
//! assert_eq!(plan.add(0, 1, &mut answers), 6);
//! assert_eq!(plan.read().wave_of(1, &mut result), 0);
//! assert_eq!((result[0], waves), (1, [0, 1]));
//! ```
//!
//! # Why the unsafe code is sound
//!
//! This is the only file of the package with unsafe code, and the one unsafe expression in it is the
//! call of a C function, in the macro `call`. A C function asks this of its caller:
//!
//! - A slice is a pointer and a length, and the pointer is valid for so many cells, aligned and not null,
//!   also where the length is 0. Both come from one Rust slice, which is all that.
//! - A slice that is written overlaps no other one of the call. It comes from a `&mut` slice, and all
//!   slices of a call are borrowed until it returns.
//! - The function is declared as it is. `tests/papers` holds the declarations in `raw.rs` against the
//!   header and against the sources of the library.
//!
//! The function asks nothing of what the cells hold. It keeps no pointer, and it has no state of its
//! own, so that calls on different slices may run in several threads. It needs up to 56 KB of stack,
//! which types cannot say: a thread that is started with less than Rust's default must have them free.

use crate::raw;

/// The slices of a plan, lent to be read.
#[derive(Clone, Copy, Debug)]
pub struct Read<'a> {
    /// 23 cells for each bank: the banks that clash with it, ascending, then 65,535.
    pub neighbours: &'a [u16],
    /// A cell for each bank: how many banks clash with it.
    pub degrees: &'a [u16],
    /// A cell for each bank: its wave.
    pub waves: &'a [u16],
    /// 24 cells for each bank: how many earlier neighbours stand in each wave.
    pub counts: &'a [u16],
    /// A cell for each bank: its rank.
    pub ranks: &'a [u16],
    /// Banks, clashes, waves, cap.
    pub tally: &'a [u16],
}

/// The slices of a plan, lent to be changed: those of [`Read`].
#[derive(Debug)]
pub struct Lent<'a> {
    /// 23 cells for each bank.
    pub neighbours: &'a mut [u16],
    /// A cell for each bank.
    pub degrees: &'a mut [u16],
    /// A cell for each bank.
    pub waves: &'a mut [u16],
    /// 24 cells for each bank.
    pub counts: &'a mut [u16],
    /// A cell for each bank.
    pub ranks: &'a mut [u16],
    /// Four cells.
    pub tally: &'a mut [u16],
}

/// The slices for what a call that changes a plan answers beside its number.
#[derive(Debug)]
pub struct Answers<'a> {
    /// A cell for each bank: the banks taken up, from the front.
    pub trail: &'a mut [u16],
    /// A cell for each bank: the banks whose wave changed, from the front.
    pub moved: &'a mut [u16],
    /// The call's further answers, from the front.
    pub result: &'a mut [u16],
}

/// Calls a function of the library: the slices, then the numbers. `&` marks a slice that is lent to be
/// read.
macro_rules! call {
    ($function:ident($($(& $read:ident)? $($slice:ident)?),*; $($number:expr),*)) => {
        unsafe {
            raw::$function(
                $(
                    $($read.as_ptr(), $read.len(),)?
                    $($slice.as_mut_ptr(), $slice.len(),)?
                )*
                $($number),*
            )
        }
    };
}

/// Calls a function that only reads the plan: its slices come first.
macro_rules! read {
    ($function:ident($plan:ident, $($others:tt)*)) => {{
        let Read { neighbours, degrees, waves, counts, ranks, tally } = $plan;
        call!($function(&neighbours, &degrees, &waves, &counts, &ranks, &tally, $($others)*))
    }};
}

/// Calls a function that makes edits: perhaps a text, the plan, trail and moved, perhaps a journal, and
/// the result.
macro_rules! edit {
    ($function:ident($(& $text:ident,)? $plan:ident, $answers:ident $(, $journal:ident)?; $($number:expr),*)) => {{
        let Lent { neighbours, degrees, waves, counts, ranks, tally } = $plan;
        let Answers { trail, moved, result } = $answers;
        call!($function(
            $(&$text,)? neighbours, degrees, waves, counts, ranks, trail, moved, tally, $($journal,)? result;
            $($number),*))
    }};
}

impl Read<'_> {
    /// Wave of bank b. Result: the wave.
    pub fn wave_of(self, b: u16, result: &mut [u16]) -> u16 {
        read!(wave_plan_wave_of(self, result; b))
    }

    /// Clashes of bank b. Results: the first cell of the filled part of its row, and its length.
    pub fn clashes_of(self, b: u16, result: &mut [u16]) -> u16 {
        read!(wave_plan_clashes_of(self, result; b))
    }

    /// How many waves the plan has at most: the result.
    pub fn wave_bound(self, result: &mut [u16]) -> u16 {
        read!(wave_plan_wave_bound(self, result;))
    }

    /// The wave of bank b, read straight off the rule. Result: the wave.
    pub fn wave_by_rule(self, b: u16, result: &mut [u16]) -> u16 {
        read!(wave_plan_wave_by_rule(self, result; b))
    }

    /// The step of each bank with so many couriers, in its cell. Result: how many steps there are.
    pub fn crew_steps(self, couriers: u16, steps: &mut [u16], result: &mut [u16]) -> u16 {
        read!(wave_plan_crew_steps(self, steps, result; couriers))
    }

    /// The least crew that ends within so many steps: the result.
    pub fn least_crew(self, limit: u16, result: &mut [u16]) -> u16 {
        read!(wave_plan_least_crew(self, result; limit))
    }

    /// Write a sheet to the front of the output. Result: its length.
    pub fn write_sheet(self, out: &mut [u8], result: &mut [u16]) -> u16 {
        read!(wave_plan_write_sheet(self, out, result;))
    }

    /// Write a poster to the front of the output. Result: its length.
    pub fn write_poster(self, out: &mut [u8], result: &mut [u16]) -> u16 {
        read!(wave_plan_write_poster(self, out, result;))
    }

    /// Start a journal at the front of the slice. Result: its length.
    pub fn start_journal(self, journal: &mut [u8], result: &mut [u16]) -> u16 {
        read!(wave_plan_start_journal(self, journal, result;))
    }

    /// Keep the plan under a name.
    pub fn keep(self, shelf: &mut [u16], name: &[u8]) -> u16 {
        read!(wave_plan_keep(self, shelf, &name;))
    }

    /// Check a sheet from anybody. Results: the line at fault, and the two banks that clash in one wave.
    pub fn check_sheet(self, sheet: &[u8], result: &mut [u16]) -> u16 {
        read!(wave_plan_check_sheet(self, result, &sheet;))
    }
}

impl Lent<'_> {
    /// The same slices, to be read.
    pub fn read(&self) -> Read<'_> {
        Read {
            neighbours: self.neighbours,
            degrees: self.degrees,
            waves: self.waves,
            counts: self.counts,
            ranks: self.ranks,
            tally: self.tally,
        }
    }

    /// Open: n banks, no clash, all of rank 0, the cap 24.
    pub fn open(&mut self, n: u16) -> u16 {
        let Lent {
            neighbours,
            degrees,
            waves,
            counts,
            ranks,
            tally,
        } = self;
        call!(wave_plan_open(neighbours, degrees, waves, counts, ranks, tally; n))
    }

    /// Set the cap.
    pub fn set_cap(&mut self, cap: u16) -> u16 {
        let Lent {
            neighbours,
            degrees,
            waves,
            counts,
            ranks,
            tally,
        } = self;
        call!(wave_plan_set_cap(&neighbours, &degrees, &waves, &counts, &ranks, tally; cap))
    }

    /// Add the clash of a and b. Results: moved count, trail count.
    pub fn add(&mut self, a: u16, b: u16, answers: &mut Answers) -> u16 {
        edit!(wave_plan_add(self, answers; a, b))
    }

    /// Strike the clash of a and b. Results: moved count, trail count.
    pub fn strike(&mut self, a: u16, b: u16, answers: &mut Answers) -> u16 {
        edit!(wave_plan_strike(self, answers; a, b))
    }

    /// Add the clash of a and b and record it in the journal, which is the first `length` bytes of the
    /// slice. Results: moved count, trail count, the new length.
    pub fn add_recorded(
        &mut self,
        a: u16,
        b: u16,
        journal: &mut [u8],
        length: usize,
        answers: &mut Answers,
    ) -> u16 {
        edit!(wave_plan_add_recorded(self, answers, journal; a, b, length))
    }

    /// Strike the clash of a and b and record it, as `add_recorded` does.
    pub fn strike_recorded(
        &mut self,
        a: u16,
        b: u16,
        journal: &mut [u8],
        length: usize,
        answers: &mut Answers,
    ) -> u16 {
        edit!(wave_plan_strike_recorded(self, answers, journal; a, b, length))
    }

    /// Read a list. Result: the row of a refusal.
    pub fn read_list(&mut self, list: &[u8], answers: &mut Answers) -> u16 {
        edit!(wave_plan_read_list(&list, self, answers;))
    }

    /// Replay a journal. Results: the field of a refusal, and how many bytes were left over.
    pub fn replay(&mut self, journal: &[u8], answers: &mut Answers) -> u16 {
        edit!(wave_plan_replay(&journal, self, answers;))
    }

    /// Come back to the plan kept under a name. Result: moved count. The trail stays as it is.
    pub fn come_back(&mut self, shelf: &[u16], name: &[u8], answers: &mut Answers) -> u16 {
        let Lent {
            neighbours,
            degrees,
            waves,
            counts,
            ranks,
            tally,
        } = self;
        let Answers { moved, result, .. } = answers;
        call!(wave_plan_come_back(
            neighbours, degrees, waves, counts, ranks, moved, tally, &shelf, &name, result;))
    }
}

/// Open a shelf for plans of n banks.
pub fn open_shelf(shelf: &mut [u16], n: u16) -> u16 {
    call!(wave_plan_open_shelf(shelf; n))
}
