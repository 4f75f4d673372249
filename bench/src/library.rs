//! Plan memory, and the calls of the static libraries that are timed.

use crate::clashes::Clashes;
use crate::raw::{
    wave_plan_add, wave_plan_open, wave_plan_read_list, wave_plan_set_cap, wave_plan_strike,
    wave_plan_wave_by_rule, wave_plan_wave_of, wave_plan_write_sheet,
};

/// The words of a queue: WORDS of crates/queue.
const QUEUE_WORDS: usize = 2439;

/// An edit by the C interface: seven slices, tally, result, and the two banks.
type CheckedCall = unsafe extern "C" fn(
    *mut u16,
    usize,
    *mut u16,
    usize,
    *mut u16,
    usize,
    *mut u16,
    usize,
    *const u16,
    usize,
    *mut u16,
    usize,
    *mut u16,
    usize,
    *mut u16,
    usize,
    *mut u16,
    usize,
    u16,
    u16,
) -> u16;

/// The same with a queue of QUEUE_WORDS after the seven slices.
type CoreCall = unsafe extern "C" fn(
    *mut u16,
    usize,
    *mut u16,
    usize,
    *mut u16,
    usize,
    *mut u16,
    usize,
    *const u16,
    usize,
    *mut u16,
    usize,
    *mut u16,
    usize,
    *mut u64,
    *mut u16,
    usize,
    *mut u16,
    usize,
    u16,
    u16,
) -> u16;

/// Declares functions of the type CoreCall.
macro_rules! core_calls {
    ($($name:ident)*) => {
        extern "C" {
            $(fn $name(
                neighbours: *mut u16,
                neighbours_length: usize,
                degrees: *mut u16,
                degrees_length: usize,
                waves: *mut u16,
                waves_length: usize,
                counts: *mut u16,
                counts_length: usize,
                ranks: *const u16,
                ranks_length: usize,
                trail: *mut u16,
                trail_length: usize,
                moved: *mut u16,
                moved_length: usize,
                queue: *mut u64,
                tally: *mut u16,
                tally_length: usize,
                result: *mut u16,
                result_length: usize,
                a: u16,
                b: u16,
            ) -> u16;)*
        }
    };
}

core_calls! { bench_add bench_strike }

extern "C" {
    fn bench_ready(ranks: *const u16, ranks_length: usize, queue: *mut u64, banks: u16);
}

/// An edit with question 5 or without.
#[derive(Clone, Copy)]
pub enum EditCall {
    Checked(CheckedCall),
    Core(CoreCall),
}

/// The two edits with question 5 and without.
#[derive(Clone, Copy)]
pub struct EditCalls {
    pub add: EditCall,
    pub strike: EditCall,
}

/// Edits that ask no question 5.
pub const CORE: EditCalls = EditCalls {
    add: EditCall::Core(bench_add),
    strike: EditCall::Core(bench_strike),
};

/// Edits that ask all questions.
pub const CHECKED: EditCalls = EditCalls {
    add: EditCall::Checked(wave_plan_add),
    strike: EditCall::Checked(wave_plan_strike),
};

/// The memory of a plan.
#[derive(Clone)]
pub struct Memory {
    pub neighbours: Vec<u16>,
    pub degrees: Vec<u16>,
    pub waves: Vec<u16>,
    pub counts: Vec<u16>,
    pub ranks: Vec<u16>,
    pub trail: Vec<u16>,
    pub moved: Vec<u16>,
    /// What core edits are lent, ready for these ranks.
    queue: Vec<u64>,
    /// Banks, clashes, waves, cap.
    pub tally: [u16; 4],
    /// Moved count and trail count, or the wave.
    pub result: [u16; 2],
}

impl Memory {
    /// A plan of banks of these ranks without a clash.
    pub fn opened(ranks: &[u16]) -> Memory {
        let banks = ranks.len();
        let mut memory = Memory {
            neighbours: vec![0; 23 * banks],
            degrees: vec![0; banks],
            waves: vec![0; banks],
            counts: vec![0; 24 * banks],
            ranks: vec![0; banks],
            trail: vec![0; banks],
            moved: vec![0; banks],
            queue: vec![0; QUEUE_WORDS],
            tally: [0; 4],
            result: [0; 2],
        };
        // Sound: each slice is valid for its length, and no two overlap.
        let number = unsafe {
            wave_plan_open(
                memory.neighbours.as_mut_ptr(),
                memory.neighbours.len(),
                memory.degrees.as_mut_ptr(),
                memory.degrees.len(),
                memory.waves.as_mut_ptr(),
                memory.waves.len(),
                memory.counts.as_mut_ptr(),
                memory.counts.len(),
                memory.ranks.as_mut_ptr(),
                memory.ranks.len(),
                memory.tally.as_mut_ptr(),
                memory.tally.len(),
                banks as u16,
            )
        };
        assert_eq!(number, 0);
        memory.ranks.copy_from_slice(ranks);
        memory.ready_queue();
        memory
    }

    /// Makes the queue ready for core edits of plans with these ranks, as a list's pass does once for
    /// all its rows.
    pub fn ready_queue(&mut self) {
        // Sound: the slice is valid for its length, the queue has its words, and they do not overlap.
        unsafe {
            bench_ready(
                self.ranks.as_ptr(),
                self.ranks.len(),
                self.queue.as_mut_ptr(),
                self.tally[0],
            );
        }
    }

    /// The plan of these clashes and ranks, made by core edits.
    pub fn of(clashes: &Clashes, ranks: &[u16]) -> Memory {
        let mut memory = Memory::opened(ranks);
        for (a, b) in clashes.pairs() {
            memory.edit(CORE.add, a, b);
        }
        assert!(memory.neighbours == clashes.neighbours);
        memory
    }

    /// An edit, which must be accepted. The memory holds a plan, as the core edits require.
    pub fn edit(&mut self, call: EditCall, a: u16, b: u16) {
        assert_eq!(self.number_of(call, a, b), 0);
    }

    /// An edit that must be refused for the cap.
    pub fn refused_edit(&mut self, call: EditCall, a: u16, b: u16) {
        assert_eq!(self.number_of(call, a, b), 20);
    }

    fn number_of(&mut self, call: EditCall, a: u16, b: u16) -> u16 {
        // Sound: each slice is valid for its length, the queue has its words, and no two overlap.
        unsafe {
            match call {
                EditCall::Checked(call) => call(
                    self.neighbours.as_mut_ptr(),
                    self.neighbours.len(),
                    self.degrees.as_mut_ptr(),
                    self.degrees.len(),
                    self.waves.as_mut_ptr(),
                    self.waves.len(),
                    self.counts.as_mut_ptr(),
                    self.counts.len(),
                    self.ranks.as_ptr(),
                    self.ranks.len(),
                    self.trail.as_mut_ptr(),
                    self.trail.len(),
                    self.moved.as_mut_ptr(),
                    self.moved.len(),
                    self.tally.as_mut_ptr(),
                    self.tally.len(),
                    self.result.as_mut_ptr(),
                    self.result.len(),
                    a,
                    b,
                ),
                EditCall::Core(call) => call(
                    self.neighbours.as_mut_ptr(),
                    self.neighbours.len(),
                    self.degrees.as_mut_ptr(),
                    self.degrees.len(),
                    self.waves.as_mut_ptr(),
                    self.waves.len(),
                    self.counts.as_mut_ptr(),
                    self.counts.len(),
                    self.ranks.as_ptr(),
                    self.ranks.len(),
                    self.trail.as_mut_ptr(),
                    self.trail.len(),
                    self.moved.as_mut_ptr(),
                    self.moved.len(),
                    self.queue.as_mut_ptr(),
                    self.tally.as_mut_ptr(),
                    self.tally.len(),
                    self.result.as_mut_ptr(),
                    self.result.len(),
                    a,
                    b,
                ),
            }
        }
    }

    /// Sets the cap, which must be accepted.
    pub fn set_cap(&mut self, cap: u16) {
        // Sound: each slice is valid for its length, and no two overlap.
        let number = unsafe {
            wave_plan_set_cap(
                self.neighbours.as_ptr(),
                self.neighbours.len(),
                self.degrees.as_ptr(),
                self.degrees.len(),
                self.waves.as_ptr(),
                self.waves.len(),
                self.counts.as_ptr(),
                self.counts.len(),
                self.ranks.as_ptr(),
                self.ranks.len(),
                self.tally.as_mut_ptr(),
                self.tally.len(),
                cap,
            )
        };
        assert_eq!(number, 0);
    }

    /// The wave of a bank: question 5, then one cell read.
    pub fn wave_of(&mut self, b: u16) -> u16 {
        // Sound: each slice is valid for its length, and no two overlap.
        let number = unsafe {
            wave_plan_wave_of(
                self.neighbours.as_ptr(),
                self.neighbours.len(),
                self.degrees.as_ptr(),
                self.degrees.len(),
                self.waves.as_ptr(),
                self.waves.len(),
                self.counts.as_ptr(),
                self.counts.len(),
                self.ranks.as_ptr(),
                self.ranks.len(),
                self.tally.as_ptr(),
                self.tally.len(),
                self.result.as_mut_ptr(),
                self.result.len(),
                b,
            )
        };
        assert_eq!(number, 0);
        self.result[0]
    }

    /// The wave of a bank: question 5, then the search straight off the rule.
    pub fn wave_by_rule(&mut self, b: u16) -> u16 {
        // Sound: each slice is valid for its length, and no two overlap.
        let number = unsafe {
            wave_plan_wave_by_rule(
                self.neighbours.as_ptr(),
                self.neighbours.len(),
                self.degrees.as_ptr(),
                self.degrees.len(),
                self.waves.as_ptr(),
                self.waves.len(),
                self.counts.as_ptr(),
                self.counts.len(),
                self.ranks.as_ptr(),
                self.ranks.len(),
                self.tally.as_ptr(),
                self.tally.len(),
                self.result.as_mut_ptr(),
                self.result.len(),
                b,
            )
        };
        assert_eq!(number, 0);
        self.result[0]
    }

    /// Reads a list, which must be accepted.
    pub fn read_list(&mut self, list: &[u8]) {
        // Sound: each slice is valid for its length, and no two overlap.
        let number = unsafe {
            wave_plan_read_list(
                list.as_ptr(),
                list.len(),
                self.neighbours.as_mut_ptr(),
                self.neighbours.len(),
                self.degrees.as_mut_ptr(),
                self.degrees.len(),
                self.waves.as_mut_ptr(),
                self.waves.len(),
                self.counts.as_mut_ptr(),
                self.counts.len(),
                self.ranks.as_mut_ptr(),
                self.ranks.len(),
                self.trail.as_mut_ptr(),
                self.trail.len(),
                self.moved.as_mut_ptr(),
                self.moved.len(),
                self.tally.as_mut_ptr(),
                self.tally.len(),
                self.result.as_mut_ptr(),
                self.result.len(),
            )
        };
        assert_eq!(number, 0);
    }

    /// Writes the sheet, which must fit, to the front of the bytes. Answers its length.
    pub fn write_sheet(&mut self, out: &mut [u8]) -> usize {
        // Sound: each slice is valid for its length, and no two overlap.
        let number = unsafe {
            wave_plan_write_sheet(
                self.neighbours.as_ptr(),
                self.neighbours.len(),
                self.degrees.as_ptr(),
                self.degrees.len(),
                self.waves.as_ptr(),
                self.waves.len(),
                self.counts.as_ptr(),
                self.counts.len(),
                self.ranks.as_ptr(),
                self.ranks.len(),
                self.tally.as_ptr(),
                self.tally.len(),
                out.as_mut_ptr(),
                out.len(),
                self.result.as_mut_ptr(),
                self.result.len(),
            )
        };
        assert_eq!(number, 0);
        usize::from(self.result[0])
    }

    /// The sum of all cells of the plan.
    #[inline(never)]
    pub fn sum(&self) -> u32 {
        let cells = [
            &self.neighbours,
            &self.degrees,
            &self.waves,
            &self.counts,
            &self.ranks,
        ];
        let sum = |cells: &Vec<u16>| cells.iter().map(|&cell| u32::from(cell)).sum::<u32>();
        cells.iter().map(|cells| sum(cells)).sum()
    }

    /// Whether the plan cells and the tally are equal.
    pub fn same_plan(&self, other: &Memory) -> bool {
        self.neighbours == other.neighbours
            && self.degrees == other.degrees
            && self.waves == other.waves
            && self.counts == other.counts
            && self.ranks == other.ranks
            && self.tally == other.tally
    }

    /// Whether what an edit leaves is equal: all but the queue, which checked edits are not lent.
    pub fn same_edit(&self, other: &Memory) -> bool {
        self.same_plan(other)
            && self.trail == other.trail
            && self.moved == other.moved
            && self.result == other.result
    }
}
