//! Crews: the day as it is served by so many couriers, simulated step by step; the calls that answer each
//! bank's step and the least crew; and the output of the program *crew*.

use crate::graph::{Bank, Wave};
use crate::memory::Memory;
use crate::plan::{cell, MAX_BANKS, MAX_COURIERS, MAX_LIMIT};
use crate::refusals::*;
use crate::sheet::LETTERS;
use std::collections::BTreeSet;

/// A step of the day: the present wave, and the banks that are served.
#[derive(Clone, Debug, PartialEq, Eq)]
pub struct Step {
    pub wave: Wave,
    pub banks: Vec<Bank>,
}

/// The day of the waves by bank number. All banks wait; in each step the couriers take the lowest waiting
/// banks of the present wave, one each, and the next wave starts in the step after its last.
pub fn served_day(waves: &[Wave], couriers: usize) -> Vec<Step> {
    let mut waiting: BTreeSet<(Wave, Bank)> = waves.iter().copied().zip(0..).collect();
    let mut day = Vec::new();
    while let Some(&(wave, _)) = waiting.iter().next() {
        let present = waiting.iter().take_while(|&&(w, _)| w == wave);
        let banks: Vec<Bank> = present.take(couriers).map(|&(_, b)| b).collect();
        for &b in &banks {
            waiting.remove(&(wave, b));
        }
        day.push(Step { wave, banks });
    }
    day
}

/// The least crew from 1 to 64 whose day ends within so many steps, if there is one: each is tried in turn.
pub fn least_crew(waves: &[Wave], limit: usize) -> Option<usize> {
    (1..=MAX_COURIERS).find(|&couriers| served_day(waves, couriers).len() <= limit)
}

/// The answer to crew steps: the number, and how many steps the day has.
#[derive(Clone, Copy, Debug, PartialEq, Eq)]
pub struct CrewAnswer {
    pub number: u16,
    pub total: usize,
}

/// The answer to least crew: the number and the couriers.
#[derive(Clone, Copy, Debug, PartialEq, Eq)]
pub struct LeastCrewAnswer {
    pub number: u16,
    pub couriers: usize,
}

impl Memory {
    /// Crew steps: the step of each bank in its cell. Cells beyond the banks' stay.
    pub fn crew_steps(&self, couriers: u16, steps: &mut [u16]) -> CrewAnswer {
        match self.day_questions(couriers.into(), steps.len()) {
            Ok(day) => {
                for (step, served) in (1..).zip(&day) {
                    for &b in &served.banks {
                        steps[b] = step;
                    }
                }
                CrewAnswer {
                    number: ACCEPTED,
                    total: day.len(),
                }
            }
            Err(number) => CrewAnswer { number, total: 0 },
        }
    }

    /// The questions of crew steps, with so many cells for the steps. The answer is the day.
    fn day_questions(&self, couriers: usize, cells: usize) -> Result<Vec<Step>, u16> {
        let n = self.tally_banks()?;
        ask(self.plan_fits(n) && n <= cells, SLICE_TOO_SHORT)?;
        let graph = self.held_graph().ok_or(NO_PLAN)?;
        ask((1..=MAX_COURIERS).contains(&couriers), CREW_OUT_OF_SPAN)?;
        Ok(served_day(&graph.waves(), couriers))
    }

    /// Least crew: the least that ends within so many steps.
    pub fn least_crew(&self, limit: u16) -> LeastCrewAnswer {
        let limit = usize::from(limit);
        let asked = self.plan_questions().and_then(|graph| {
            ask(limit <= MAX_LIMIT, CREW_OUT_OF_SPAN)?;
            least_crew(&graph.waves(), limit).ok_or(NO_CREW)
        });
        match asked {
            Ok(couriers) => LeastCrewAnswer {
                number: ACCEPTED,
                couriers,
            },
            Err(number) => LeastCrewAnswer {
                number,
                couriers: 0,
            },
        }
    }
}

/// What the program *crew* is asked: the day of so many couriers, or that of the fewest who end within so
/// many steps.
#[derive(Clone, Copy, Debug)]
pub enum Asked {
    Couriers(u16),
    Within(u16),
}

/// What the program prints for a list on standard input.
pub fn program_output(list: &[u8], asked: Asked) -> Vec<u8> {
    let mut memory = Memory::filled(MAX_BANKS, 0);
    let read = memory.read_list(list);
    let output = if read.number != ACCEPTED {
        format!("REFUSED {} ROW {}\n", read.number, read.row)
    } else {
        match asked {
            Asked::Couriers(couriers) => day_output(&memory, couriers),
            Asked::Within(limit) => within_output(&memory, limit),
        }
    };
    output.into_bytes()
}

/// A line for each step of the day of so many couriers, or the refusal.
fn day_output(memory: &Memory, couriers: u16) -> String {
    match memory.day_questions(couriers.into(), MAX_BANKS) {
        Ok(day) => (1..).zip(&day).map(line).collect(),
        Err(number) => format!("CREW {couriers} REFUSED {number}\n"),
    }
}

/// The least crew and its day, or the refusal.
fn within_output(memory: &Memory, limit: u16) -> String {
    let least = memory.least_crew(limit);
    match least.number {
        ACCEPTED => {
            let couriers = cell(least.couriers);
            format!("CREW {couriers}\n{}", day_output(memory, couriers))
        }
        number => format!("WITHIN {limit} REFUSED {number}\n"),
    }
}

/// The line of a step: its number, the letter of its wave, and its banks, one space before each.
fn line((number, step): (usize, &Step)) -> String {
    let letter = LETTERS.as_bytes()[step.wave] as char;
    let banks: String = step.banks.iter().map(|b| format!(" {b}")).collect();
    format!("{number} {letter}{banks}\n")
}
