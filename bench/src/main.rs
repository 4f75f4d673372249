//! Benchmarks, all in one run: edits and question 5 of the library against a colouring from
//! scratch, and the program *sheet* against programs that colour from scratch. Writes
//! docs/BENCHMARKS.md and its plots. What is compared is ratios of times.
//!
//! With the argument `quick` everything is measured a few times only, for work on the benchmarks, and
//! written to target/bench.
//!
//! - `effort`: how often things are measured.
//! - `library`: plan memory, and the calls of the static libraries.
//! - `scratch`: the colourings from scratch.
//! - `clashes`, `lists`: clashes and random edits of them; lists and their sheets.
//! - `clock`: processor time.
//! - `edits`: the measurements on one plan.
//! - `by_rule`: waves read straight off the rule, in complete plans.
//! - `program`: the measurements of programs.
//! - `growth`: how times grow.
//! - `parts`: where time goes.
//! - `night`: many lists on one core and on two.
//! - `spread`, `fit`: median and quartiles; lines through points.
//! - `report`, `goals`: the document, and its goals.
//! - `plot`, `curves`, `chart`, `svg`: its plots.

mod by_rule;
mod chart;
mod clashes;
mod clock;
mod curves;
mod edits;
mod effort;
mod fit;
mod goals;
mod growth;
mod library;
mod lists;
mod night;
mod parts;
mod plot;
mod program;
/// The declarations of the C library, shared with the safe wrapper; the benchmarks call a part of them.
#[allow(dead_code)]
#[path = "../../bindings/rust/src/raw.rs"]
mod raw;
mod report;
mod scratch;
mod spread;
mod svg;

use effort::{Effort, FULL, QUICK};
use independent::random::Random;
use independent::ranks::random_ranks;
use std::path::{Path, PathBuf};
use std::{env, fs, io};

/// The most banks of a plan, and the bank count of all plans here but those of `by_rule`, `growth` and
/// `night`.
pub const BANKS: usize = 1024;

/// The number of clashes at which edits have an average trail of about 40.
pub const TRAIL_40: usize = 5720;

/// The numbers of clashes of the plans, from few to many.
const CLASHES: [usize; 6] = [1024, 2048, 4096, TRAIL_40, 8192, 10_240];

/// All that was measured.
pub struct Results {
    pub effort: Effort,
    pub plans: Vec<edits::Measured>,
    pub programs: program::Programs,
    pub growth: growth::Growth,
    pub parts: parts::Parts,
    pub straight: Vec<by_rule::Measured>,
    pub night: night::Night,
}

fn main() -> io::Result<()> {
    let arguments: Vec<String> = env::args().skip(1).collect();
    let arguments: Vec<&str> = arguments.iter().map(String::as_str).collect();
    match arguments[..] {
        [] => run(FULL, &repository().join("docs")),
        ["quick"] => run(QUICK, &repository().join("target/bench")),
        [mode] => program::from_scratch(mode),
        _ => panic!("at most one argument"),
    }
}

fn run(effort: Effort, folder: &Path) -> io::Result<()> {
    fs::create_dir_all(folder)?;
    let measure = |&clashes| edits::measure(&effort, clashes);
    let results = Results {
        effort,
        plans: CLASHES.iter().map(measure).collect(),
        programs: program::measure(&effort),
        growth: growth::measure(&effort),
        parts: parts::measure(&effort),
        straight: by_rule::BANKS
            .map(|banks| by_rule::measure(&effort, banks))
            .into(),
        night: night::measure(&effort)?,
    };
    fs::write(folder.join("benchmarks.svg"), plot::svg(&results.plans))?;
    for (name, chart) in curves::charts(&results) {
        fs::write(folder.join(name), chart.svg())?;
    }
    fs::write(folder.join("BENCHMARKS.md"), report::document(&results))
}

/// The folder of the repository.
pub fn repository() -> PathBuf {
    Path::new(env!("CARGO_MANIFEST_DIR")).join("..")
}

/// Random ranks of so many banks, from 0 to 9,999.
pub fn random_ranks_of(random: &mut Random, banks: usize) -> Vec<u16> {
    let ranks = random_ranks(random, banks).into_iter();
    ranks.map(|rank| rank as u16).collect()
}
