//! The wave of the last bank of a complete plan, read straight off the rule and as kept, in turn, repeat by
//! repeat.

use crate::clock::processor_time;
use crate::effort::Effort;
use crate::library::{Memory, CHECKED};

/// The bank counts, up to the most that are read so.
pub const BANKS: [usize; 4] = [4, 8, 12, 16];

/// How many look-ups a repeat times.
pub const LOOK_UPS: usize = 8;

/// The seconds of the look-ups of each repeat.
pub struct Measured {
    pub banks: usize,
    pub straight: Vec<f64>,
    pub kept: Vec<f64>,
}

pub fn measure(effort: &Effort, banks: usize) -> Measured {
    let mut memory = complete(banks);
    let last = banks as u16 - 1;
    let mut measured = Measured {
        banks,
        straight: Vec::new(),
        kept: Vec::new(),
    };
    for _ in 0..effort.repeats {
        let straight = timed(|| assert_eq!(memory.wave_by_rule(last), last));
        let kept = timed(|| assert_eq!(memory.wave_of(last), last));
        measured.straight.push(straight);
        measured.kept.push(kept);
    }
    measured
}

/// A plan in which all banks clash: each has the wave of its number.
fn complete(banks: usize) -> Memory {
    let mut memory = Memory::opened(&vec![0; banks]);
    for b in 0..banks as u16 {
        for a in 0..b {
            memory.edit(CHECKED.add, a, b);
        }
    }
    memory
}

/// The processor time of so many look-ups.
fn timed(mut look_up: impl FnMut()) -> f64 {
    let start = processor_time();
    for _ in 0..LOOK_UPS {
        look_up();
    }
    processor_time() - start
}
