//! A model of the wave planner, to hold the planner against. It is written from the papers alone
//! and shares no code with the planner. It keeps no state between edits other than the lent
//! memory, and works every plan out from scratch: sort the banks by the rule order, colour
//! greedily, fill in the cells.
//!
//! - `graph`: banks, clashes, ranks, rule order, rule waves.
//! - `reach`: trail and moved of an edit, from the old and the new graph.
//! - `plan`: the plan's cells and tally.
//! - `memory`: the lent slices, and whether they hold a plan.
//! - `refusals`: the numbers of the questions.
//! - `calls`: open, add, strike, set the cap, wave of a bank, kept or read straight off the rule,
//!   clashes of a bank, how many waves at most.
//! - `list`: the list's rows and the call that reads a list.
//! - `journal`: a journal's fields, and the calls that start, record and replay.
//! - `shelf`: three places for kept plans, and the calls that open it, keep and come back.
//! - `sheet`, `poster`: their texts, the calls that write them, and the outputs of the programs.
//! - `crew`: the day as a crew serves it, the calls on it, and the output of the program.
//! - `doubt`: the output of the program.
//! - `check_sheet`: sheets from anybody, the call that checks one, and the output of the program *agree*.
//! - `random`, `ranks`, `lists`, `journals`, `sheets`: inputs for the tests.

pub mod calls;
pub mod check_sheet;
pub mod crew;
pub mod doubt;
pub mod graph;
pub mod journal;
pub mod journals;
pub mod list;
pub mod lists;
pub mod memory;
pub mod plan;
pub mod poster;
pub mod random;
pub mod ranks;
pub mod reach;
pub mod refusals;
pub mod sheet;
pub mod sheets;
pub mod shelf;
