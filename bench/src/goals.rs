//! The goals, what was measured of each, whether the medians meet it, and if not, where the time goes.

use crate::curves::plan_of_40;
use crate::edits::{Measured, OnPlan, Times};
use crate::program::{Program, Runs};
use crate::report::table;
use crate::spread::{figure, Spread};
use crate::{Results, BANKS};

/// A ratio, what it should be, what it is, and where the time goes.
struct Goal {
    ratio: String,
    ranks: &'static str,
    bound: Bound,
    measured: Spread,
    reason: String,
}

enum Bound {
    AtMost(f64),
    AtLeast(f64),
}

use Bound::*;

impl Goal {
    fn row(&self) -> Vec<String> {
        let median = self.measured.median;
        let (bound, met) = match self.bound {
            AtMost(most) => (format!("at most {most}"), median <= most),
            AtLeast(least) => (format!("at least {least}"), median >= least),
        };
        let (met, reason) = if met {
            ("yes", "-")
        } else {
            ("no", &*self.reason)
        };
        let ratio = self.ratio.clone();
        let [ranks, met, reason] = [self.ranks, met, reason].map(str::to_string);
        vec![ratio, ranks, bound, self.measured.to_string(), met, reason]
    }
}

/// With all ranks 0, or with random ranks: where the figures of each stand.
#[derive(Clone, Copy)]
struct Side {
    place: usize,
    ranks: &'static str,
    plan: fn(&Measured) -> &OnPlan,
    runs: fn(&Runs) -> &Vec<f64>,
}

const RANKS_0: Side = Side {
    place: 0,
    ranks: "0",
    plan: |plan| &plan.ranks_0,
    runs: |runs| &runs.ranks_0,
};

const RANDOM: Side = Side {
    place: 1,
    ranks: "random",
    plan: |plan| &plan.ranked,
    runs: |runs| &runs.ranked,
};

/// The goals against peers, and those set before.
pub fn goals(results: &Results) -> (String, String) {
    let mut against_peers = Vec::new();
    for of in [of_programs, of_core, of_checked, of_question] {
        for side in [RANKS_0, RANDOM] {
            against_peers.extend(of(results, side));
        }
    }
    let mut before = of_calls_before(results);
    before.extend(of_ranks(results));
    before.extend(of_caps(results));
    (goal_table(&against_peers), goal_table(&before))
}

fn goal_table(goals: &[Goal]) -> String {
    let rows: Vec<Vec<String>> = goals.iter().map(Goal::row).collect();
    table(
        &[
            "ratio of times",
            "ranks",
            "goal",
            "measured",
            "met",
            "if not: where the time goes",
        ],
        &rows,
    )
}

/// The program *sheet* against Boost.
fn of_programs(results: &Results, side: Side) -> Vec<Goal> {
    let times = |program| (side.runs)(results.programs.of(program));
    let sheet = times(Program::Sheet);
    let once = [Program::BoostOnce, Program::BoostByHand].map(|program| Goal {
        ratio: format!("`sheet` / {}", program.name()),
        ranks: side.ranks,
        bound: AtMost(0.75),
        measured: Spread::ratio(sheet, times(program)),
        reason: run_reason(results, side, program),
    });
    let every_row = [Program::BoostEveryRow, Program::BoostKept].map(|program| Goal {
        ratio: format!("{} / `sheet`", program.name()),
        ranks: side.ranks,
        bound: AtLeast(100.0),
        measured: Spread::ratio(times(program), sheet),
        reason: run_reason(results, side, program),
    });
    once.into_iter().chain(every_row).collect()
}

/// Core edits against colourings with a counting sort.
fn of_core(results: &Results, side: Side) -> Vec<Goal> {
    let taken = |times: &Times| Spread::ratio(&times.core, &times.counting_sort);
    let goal = |plan: &Measured, which: String, bound: Bound| {
        let times = of_plan(side, plan).0;
        Goal {
            ratio: format!("colouring, counting sort / core edit, {which}"),
            ranks: side.ranks,
            bound,
            measured: Spread::ratio(&times.counting_sort, &times.core),
            reason: core_reason(results, side, plan),
        }
    };
    let at_40 = plan_of_40(results);
    let trail = of_plan(side, at_40).1;
    let slowest = worst(results, side, taken);
    vec![
        goal(at_40, format!("average trail {trail}"), AtLeast(10.0)),
        goal(slowest, on_the_worst(slowest), AtLeast(1.0)),
    ]
}

/// Checked edits against colourings with the standard sort.
fn of_checked(results: &Results, side: Side) -> Vec<Goal> {
    let taken = |times: &Times| Spread::ratio(&times.checked, &times.standard_sort);
    let slowest = worst(results, side, taken);
    let times = of_plan(side, slowest).0;
    let which = on_the_worst(slowest);
    vec![Goal {
        ratio: format!("checked edit / colouring, standard sort, {which}"),
        ranks: side.ranks,
        bound: AtMost(1.0),
        measured: taken(times),
        reason: checked_reason(times),
    }]
}

/// Question 5 against one read.
fn of_question(results: &Results, side: Side) -> Vec<Goal> {
    let taken = |times: &Times| Spread::ratio(&times.question, &times.read);
    let goal = |plan: &Measured, which: String| Goal {
        ratio: format!("question 5 / one read of all cells, {which}"),
        ranks: side.ranks,
        bound: AtMost(4.0),
        measured: taken(of_plan(side, plan).0),
        reason: question_reason(results, side, plan),
    };
    let at_40 = plan_of_40(results);
    let slowest = worst(results, side, taken);
    vec![
        goal(at_40, format!("{} clashes", at_40.clashes)),
        goal(slowest, on_the_worst(slowest)),
    ]
}

/// Edits against the other colourings, at an average trail of about 40.
fn of_calls_before(results: &Results) -> Vec<Goal> {
    let plan = plan_of_40(results);
    let (times, trail) = of_plan(RANKS_0, plan);
    let core = bases(times).map(|(name, base)| Goal {
        ratio: format!("{name} / core edit, average trail {trail}"),
        ranks: "0",
        bound: AtLeast(10.0),
        measured: Spread::ratio(base, &times.core),
        reason: core_reason(results, RANKS_0, plan),
    });
    let checked = bases(times).map(|(name, base)| Goal {
        ratio: format!("checked edit / {name}, average trail {trail}"),
        ranks: "0",
        bound: AtMost(1.5),
        measured: Spread::ratio(&times.checked, base),
        reason: checked_reason(times),
    });
    core.into_iter().skip(1).chain(checked).collect()
}

/// Random ranks against all ranks 0.
fn of_ranks(results: &Results) -> Vec<Goal> {
    let plan = plan_of_40(results);
    let (times, ranked) = (&plan.ranks_0.times, &plan.ranked.times);
    let slope = |side: Side| figure(results.growth.edits[side.place].line().slope * 1e9);
    let goal = |call: &str, ranked: &[f64], times: &[f64]| Goal {
        ratio: format!("{call} / the same with ranks 0"),
        ranks: "random",
        bound: AtMost(1.5),
        measured: Spread::ratio(ranked, times),
        reason: format!(
            "a bank taken up {} ns, with ranks 0 {} ns",
            slope(RANDOM),
            slope(RANKS_0)
        ),
    };
    let sheet = &results.programs.of(Program::Sheet).ranked;
    vec![
        goal("core edit", &ranked.core, &times.core),
        goal("checked edit", &ranked.checked, &times.checked),
        goal("question 5", &ranked.question, &times.question),
        goal("`sheet`", sheet, &results.programs.ranks_0_in_rows),
    ]
}

/// Checked edits under a cap.
fn of_caps(results: &Results) -> Vec<Goal> {
    let plan = plan_of_40(results);
    let (caps, times) = (&plan.caps, &plan.ranks_0.times);
    let goal = |ratio: &str, measured: Spread, most: f64| Goal {
        ratio: ratio.to_string(),
        ranks: "0",
        bound: AtMost(most),
        measured,
        reason: checked_reason(times),
    };
    let accepted = Spread::ratio(&caps.accepted, &times.checked);
    let words = "checked edit accepted under a cap / at cap 24";
    let mut goals = vec![goal(words, accepted, 1.1)];
    if caps.passing() > 0 {
        let refused = Spread::ratio(&caps.refused, &caps.same_made);
        let words = "checked edit refused for its cap / the same edits at cap 24";
        goals.push(goal(words, refused, 2.5));
    }
    goals
}

/// The times on a plan, and the average trail of its edits.
fn of_plan(side: Side, plan: &Measured) -> (&Times, String) {
    let plan = (side.plan)(plan);
    (&plan.times, figure(plan.reach.average_trail))
}

/// The plan of which a ratio is the highest.
fn worst(results: &Results, side: Side, ratio: fn(&Times) -> Spread) -> &Measured {
    let of = |plan: &Measured| ratio(of_plan(side, plan).0).median;
    let higher = |one: &&Measured, other: &&Measured| {
        let order = of(one).partial_cmp(&of(other));
        order.expect("numbers")
    };
    results.plans.iter().max_by(higher).expect("a plan")
}

fn on_the_worst(plan: &Measured) -> String {
    format!("on the worst plan, {} clashes", plan.clashes)
}

/// What edits are compared with, by name.
pub fn bases(times: &Times) -> [(&'static str, &Vec<f64>); 3] {
    [
        ("colouring, counting sort", &times.counting_sort),
        ("colouring, standard sort", &times.standard_sort),
        ("whole plan from scratch", &times.whole_plan),
    ]
}

fn median(times: &[f64]) -> f64 {
    Spread::of(times.iter().copied()).median
}

fn percent(part: f64, whole: f64) -> String {
    format!("{:.0} %", 100.0 * part / whole)
}

/// The parts of a run of *sheet*, each measured by itself; and of the other, starting and ending.
fn run_reason(results: &Results, side: Side, other: Program) -> String {
    let sheet = results.programs.of(Program::Sheet);
    let whole = median((side.runs)(sheet));
    let parts = [&results.parts.ranks_0, &results.parts.ranked][side.place];
    let [reading, edits] = [&parts.reading, &parts.edits].map(|times| median(times));
    let [writing, question] = [&parts.writing, &parts.question].map(|times| median(times));
    let other = results.programs.of(other);
    format!(
        "the edits are {} of `sheet`, starting and ending {}, else of reading {}, question 5 {}, else \
         of writing {}; of the other, starting and ending is {}",
        percent(edits, whole),
        percent(median(&sheet.nothing), whole),
        percent(reading - edits, whole),
        percent(question, whole),
        percent(writing - question, whole),
        percent(median(&other.nothing), median((side.runs)(other))),
    )
}

/// What of a core edit goes with its trail, and what with the banks of the plan.
fn core_reason(results: &Results, side: Side, plan: &Measured) -> String {
    let times = of_plan(side, plan).0;
    let core = median(&times.core);
    let two = median(&results.parts.edit_of_2);
    let all = median(&results.parts.edit_of_most) - two;
    format!(
        "an edit of two lone banks is {} of it, that it is among 1,024 and not 2 banks {} more, the rest \
         goes with trail and clashes: a bank taken up is {} ns at 5720 clashes, a bank coloured {} ns",
        percent(two, core),
        percent(all, core),
        figure(results.growth.edits[side.place].line().slope * 1e9),
        figure(median(&times.counting_sort) / BANKS as f64 * 1e9),
    )
}

fn checked_reason(times: &Times) -> String {
    let checked = median(&times.checked);
    format!(
        "question 5 is {} of it, the core edit {}",
        percent(median(&times.question), checked),
        percent(median(&times.core), checked),
    )
}

fn question_reason(results: &Results, side: Side, plan: &Measured) -> String {
    let times = of_plan(side, plan).0;
    let line = results.growth.clashes.question[side.place].line();
    let (question, read) = (median(&times.question), median(&times.read));
    format!(
        "{} of it goes with the clashes, {} ns each; without one it takes {} reads",
        percent(line.slope * plan.clashes as f64, question),
        figure(line.slope * 1e9),
        figure(line.at_0 / read),
    )
}
