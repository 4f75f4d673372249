//! The static library against the model: after each call, every cell that was lent.
//!
//! - `guarded`: slices between guard cells.
//! - `call`: a call, made on the library or on the model.
//! - `pair`: the library's memory and the model's, and a call made on both.
//! - `plans`: random plans of all sizes, degrees and ranks.
//! - `edits`: sequences of edits, accepted and refused, and caps.
//! - `caps`: edits at the waves that they need and one below; the caps that can be set.
//! - `bounds`: how many waves at most.
//! - `by_rule`: waves read straight off the rule.
//! - `crews`: each bank's step with so many couriers, and the least crew.
//! - `damage`, `damaged`: memory that holds no plan or is too short, and the calls on it.
//! - `lists`, `sheets`, `posters`: reading lists, writing sheets and posters.
//! - `check_sheets`: checking sheets from anybody.
//! - `journals`, `replays`: starting journals and recording edits; replaying journals.
//! - `shelves`, `kept`: sequences of keepings and returns; shelves that are damaged or too short.
//! - `totals`: runs of all calls with a total kept beside them.
//! - `short`: tally, result and ranks slices that are too short.
//! - `marked`: the paper's marked examples, ranks, caps, a journal and a shelf, through the wrapper that
//!   owns its memory.
//! - `owned`: random runs through it.
//!
//! With WAVE_PLAN_QUICK set, each test makes fewer calls, for a run under a memory checker.

mod bounds;
mod by_rule;
mod call;
mod caps;
mod check_sheets;
mod crews;
mod damage;
mod damaged;
mod edits;
mod guarded;
mod journals;
mod kept;
mod lists;
mod marked;
mod owned;
mod pair;
mod plans;
mod posters;
mod replays;
mod sheets;
mod shelves;
mod short;
mod totals;

/// Whether the tests make fewer calls.
fn quick() -> bool {
    std::env::var_os("WAVE_PLAN_QUICK").is_some()
}

/// How many rounds a test makes.
fn rounds(all: usize) -> usize {
    if quick() {
        (all / 40).max(2)
    } else {
        all
    }
}
