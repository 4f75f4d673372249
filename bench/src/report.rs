//! The document: what was measured, as tables of ratios.

use crate::by_rule::{self, LOOK_UPS};
use crate::curves::{longest_ahead, slopes};
use crate::edits::{Measured, OnPlan, Times};
use crate::goals::{bases, goals};
use crate::night::Night;
use crate::program::{Program, Programs};
use crate::spread::{figure, Spread};
use crate::Results;

const ABOUT: &str = "\
# Benchmarks

Written by `make bench`; all figures are from one run of it. What is compared is ratios: things timed on the same input, in turn, repeat
by repeat. A figure is the median of the ratio over the repeats, with the lower and the upper quartile in brackets. Everything is built
for release: the libraries and the program by the toolchain, the Rust code by `cargo --release`, the C++ code with `-O3`. Buffers are
allocated once and used again. None is cleared first: what a call needs cleared it clears itself, within its time.

## Goals

The terms are those of the sections below. Whether a goal is met goes by the median. For one that is not met, the last column says where the
time goes, in parts of it: each part was measured by itself, in the same run. Against peers:
";

const EDITS: &str = "\
## Edits at 1,024 banks

- *Core edit*: one add or strike that asks no question 5, as a list makes for each row. The queue that it is lent was made ready before, as a
  list does once for all its rows.
- *Checked edit*: `wave_plan_add` or `wave_plan_strike`, which ask all questions.
- *Question 5*: `wave_plan_wave_of`, a test of the whole memory and one cell read.
- *One read of all cells*: in Rust, the cells of rows, degrees, waves, Counts and ranks added up.
- *Colouring from scratch*: in Rust, from the rows and degrees in memory; nothing is parsed. It sorts the banks into the rule order and
  gives each the lowest wave that no neighbour holds so far, with a set of waves in one word. It leaves the waves and nothing else.
  Measured with a counting sort, which the 24 possible degrees allow, and with the standard library's sort. With random ranks the
  counting sort goes over the banks by rank, an order that is worked out once, before.
- *Whole plan from scratch*: the colouring with a counting sort, then Counts and tally: all that an edit leaves, but trail and moved.
";

const AFTER_PLANS: &str = "\
The plans have random clashes, and an edit's two banks are random. Trail and moved do not depend on the machine. One plan's number of
clashes was picked so that its average trail is about 40, without regard to its times. Times are processor times. Each plan is measured
with all ranks 0 and with random ranks from 0 to 9,999: the same clashes, the same edits.
";

const RANKS: &str = "\
With random ranks a call takes so many times as long as with all ranks 0 (lower is better). Another order of equal degrees gives other
waves, so that the trails are not the same:
";

const CAPS: &str = "\
Under a cap, checked edits against checked edits at cap 24 (lower is better). The accepted ones are those of a repeat, at a cap of the most
waves that they lead to. The refused ones (20) are edits that would lead to more waves than the plan has, at a cap of its waves; they are
compared with the same edits, and their inverses, at cap 24. A core edit asks about no cap:
";

const GROWTH: &str = "\
## How times grow

Each plot has measured points, medians over the repeats, and the line that they should follow: a straight one, by least squares of the
relative distances. The edits are picked from random ones so that their trails are spread out. The lists have 1,024 banks: one adds 2,048
clashes and then strikes and adds in turn, so that each row meets a plan of the same kind; the list of 60,000 bytes goes on adding, so that
its trails grow, and its line is so much a row and so much a bank taken up. Reading a list is `wave_plan_read_list`.

![A core edit by its trail](edit_by_trail.svg)

![A list by its rows](list_by_rows.svg)

![Question 5 by banks](question_by_banks.svg)

![Question 5 by clashes](question_by_clashes.svg)

The power is the slope on logarithmic scales over the second half of the points: 1 is in proportion, and a part of the time that does not grow
makes it less:
";

const STRAIGHT: &str = "\
## Waves read straight off the rule

`wave_plan_wave_by_rule` for the last bank of a complete plan, whose each bank clashes with all others: it walks each chain of ever earlier
neighbours, and each bank more doubles them. `wave_plan_wave_of` answers the kept wave of the same bank; both ask question 5. No goal is set:
";

pub fn document(results: &Results) -> String {
    let (plans, effort) = (&results.plans, &results.effort);
    let repeats = format!(
        "A repeat times {} edits, adds and strikes in turn and then their inverses, so that \
         the plan at its end is the one at its start.\nThere are {} repeats.\n",
        effort.edits, effort.repeats
    );
    let core = |times: &Times, base: &[f64]| Spread::ratio(base, &times.core);
    let checked = |times: &Times, base: &[f64]| Spread::ratio(&times.checked, base);
    let question = |times: &Times, base: &[f64]| Spread::ratio(&times.question, base);
    let read = |times: &Times| Some(Spread::ratio(&times.question, &times.read));
    let (against_peers, before) = goals(results);
    [
        ABOUT.to_string(),
        against_peers,
        "Goals set before, on the plan with an average trail of about 40:\n".to_string(),
        before,
        EDITS.to_string(),
        repeats,
        format!(
            "Making the queue ready takes {} µs with all ranks 0 and {} µs with random ranks.\n",
            microseconds(&results.parts.ready),
            microseconds(&results.parts.ready_ranked)
        ),
        plan_table(plans),
        AFTER_PLANS.to_string(),
        "A core edit is so many times faster than (higher is better):\n".to_string(),
        ratio_table(plans, core, |_| None),
        "A checked edit takes so many times as long as (lower is better):\n".to_string(),
        ratio_table(plans, checked, |_| None),
        "Question 5 takes so many times as long as (lower is better):\n".to_string(),
        ratio_table(plans, question, read),
        RANKS.to_string(),
        rank_table(plans),
        CAPS.to_string(),
        cap_table(plans),
        "![Times relative to a colouring from scratch](benchmarks.svg)\n".to_string(),
        program_part(&results.programs),
        GROWTH.to_string(),
        growth_part(results),
        night_part(&results.night),
        STRAIGHT.to_string(),
        straight_table(&results.straight),
    ]
    .join("\n")
}

fn straight_table(straight: &[by_rule::Measured]) -> String {
    let row = |measured: &by_rule::Measured| {
        let each = |times: &[f64]| times.iter().map(|t| t * 1e6 / LOOK_UPS as f64).collect();
        let times: Vec<f64> = each(&measured.straight);
        vec![
            measured.banks.to_string(),
            Spread::of(times).to_string(),
            Spread::ratio(&measured.straight, &measured.kept).to_string(),
        ]
    };
    let rows: Vec<Vec<String>> = straight.iter().map(row).collect();
    table(
        &["banks", "microseconds", "its time / time of the kept wave"],
        &rows,
    )
}

pub fn table(head: &[&str], rows: &[Vec<String>]) -> String {
    let line = |cells: &[String]| format!("| {} |\n", cells.join(" | "));
    let head: Vec<String> = head.iter().map(|cell| cell.to_string()).collect();
    let rule = format!("|{}\n", "---|".repeat(head.len()));
    let rows: String = rows.iter().map(|row| line(row)).collect();
    line(&head) + &rule + &rows
}

fn plan_table(plans: &[Measured]) -> String {
    let row = |plan: &Measured| {
        let (ranks_0, reach) = (&plan.ranks_0, &plan.ranks_0.reach);
        vec![
            plan.clashes.to_string(),
            figure(plan.average_degree()),
            ranks_0.waves.to_string(),
            figure(reach.average_trail),
            reach.longest_trail.to_string(),
            figure(reach.average_moved),
        ]
    };
    let rows: Vec<Vec<String>> = plans.iter().map(row).collect();
    table(
        &[
            "clashes",
            "average degree",
            "waves",
            "average trail",
            "longest trail",
            "average moved",
        ],
        &rows,
    )
}

/// The plans with all ranks 0, then those with random ranks.
fn sides(plans: &[Measured]) -> impl Iterator<Item = (usize, &'static str, &OnPlan)> {
    let ranks_0 = plans.iter().map(|plan| (plan.clashes, "0", &plan.ranks_0));
    let ranked = plans
        .iter()
        .map(|plan| (plan.clashes, "random", &plan.ranked));
    ranks_0.chain(ranked)
}

/// A ratio to each base, and one more.
fn ratio_table(
    plans: &[Measured],
    ratio: fn(&Times, &[f64]) -> Spread,
    to_read: fn(&Times) -> Option<Spread>,
) -> String {
    let row = |(clashes, ranks, plan): (usize, &str, &OnPlan)| {
        let times = &plan.times;
        let front = [
            clashes.to_string(),
            ranks.to_string(),
            figure(plan.reach.average_trail),
        ];
        let ratios = bases(times).map(|(_, base)| ratio(times, base).to_string());
        let read: Vec<String> = to_read(times).iter().map(Spread::to_string).collect();
        [&front[..], &ratios, &read].concat()
    };
    let rows: Vec<Vec<String>> = sides(plans).map(row).collect();
    let times = &plans[0].ranks_0.times;
    let mut head = vec!["clashes", "ranks", "average trail"];
    head.extend(bases(times).map(|(name, _)| name));
    head.extend(to_read(times).map(|_| "one read of all cells"));
    table(&head, &rows)
}

fn rank_table(plans: &[Measured]) -> String {
    let row = |plan: &Measured| {
        let (ranked, times) = (&plan.ranked.times, &plan.ranks_0.times);
        vec![
            plan.clashes.to_string(),
            figure(plan.ranks_0.reach.average_trail),
            figure(plan.ranked.reach.average_trail),
            Spread::ratio(&ranked.core, &times.core).to_string(),
            Spread::ratio(&ranked.checked, &times.checked).to_string(),
            Spread::ratio(&ranked.question, &times.question).to_string(),
        ]
    };
    let rows: Vec<Vec<String>> = plans.iter().map(row).collect();
    table(
        &[
            "clashes",
            "average trail, ranks 0",
            "average trail, random ranks",
            "core edit",
            "checked edit",
            "question 5",
        ],
        &rows,
    )
}

fn cap_table(plans: &[Measured]) -> String {
    let row = |plan: &Measured| {
        let caps = &plan.caps;
        let refused = if caps.passing() == 0 {
            ["none found".to_string(), "-".to_string(), "-".to_string()]
        } else {
            [
                caps.passing().to_string(),
                figure(caps.average_trail),
                Spread::ratio(&caps.refused, &caps.same_made).to_string(),
            ]
        };
        let accepted = Spread::ratio(&caps.accepted, &plan.ranks_0.times.checked).to_string();
        let front = [plan.clashes.to_string(), caps.cap.to_string(), accepted];
        [&front[..], &refused].concat()
    };
    let rows: Vec<Vec<String>> = plans.iter().map(row).collect();
    table(
        &[
            "clashes",
            "cap of the accepted",
            "accepted edit",
            "refused edits",
            "their average trail",
            "refused edit",
        ],
        &rows,
    )
}

fn program_part(programs: &Programs) -> String {
    let sheet = programs.of(Program::Sheet);
    let row = |program: Program| {
        let runs = programs.of(program);
        let ranked = if runs.ranked.is_empty() {
            "-".to_string()
        } else {
            Spread::ratio(&runs.ranked, &sheet.ranked).to_string()
        };
        vec![
            program.name().to_string(),
            milliseconds(&runs.ranks_0),
            milliseconds(&runs.nothing),
            Spread::ratio(&runs.ranks_0, &sheet.ranks_0).to_string(),
            ranked,
            runs.ranks_0.len().to_string(),
        ]
    };
    let rows = Program::ALL.map(row);
    format!(
        "## The program `sheet`\n\n\
         A list of 60,000 bytes for 1,024 banks: {} rows, adds, strikes and D rows. `sheet` keeps \
         the plan up to date row by row, trail and moved\nincluded; the other programs colour from \
         scratch, and read the list without testing it. All print the same sheet, which is compared. \
         A\ntime is that of a whole run, from the start of the process to its end, in turn. Starting \
         and ending alone is a run on `N 0`. Boost is\n`sequential_vertex_coloring` on an \
         `adjacency_list`, in the rule order by `std::sort`; the list is read by C++ streams, or by \
         hand from one\nbuffer, as the programs after every row do. networkx is `greedy_color` with \
         `largest_first`. The model is the tests' second planner.\nVersions: {}.\n\n{}\n\
         With random ranks the list has a K row for every bank and {} edit rows. Against the \
         same list with all ranks 0 in its K rows `sheet` takes\n{} times as long.\n",
        programs.rows,
        programs.versions,
        table(
            &[
                "program",
                "milliseconds, ranks 0",
                "starting and ending alone",
                "its time / time of `sheet`, ranks 0",
                "the same, random ranks",
                "runs"
            ],
            &rows
        ),
        programs.ranked_rows,
        Spread::ratio(&sheet.ranked, &programs.ranks_0_in_rows)
    )
}

fn milliseconds(times: &[f64]) -> String {
    Spread::of(times.iter().map(|time| time * 1e3)).to_string()
}

fn microseconds(times: &[f64]) -> String {
    Spread::of(times.iter().map(|time| time * 1e6)).to_string()
}

fn growth_part(results: &Results) -> String {
    format!(
        "{}\nBy these lines a core edit at 5,720 clashes and all ranks 0 takes longer than a \
         colouring with a counting sort if its trail is above {}.\n",
        table(
            &[
                "time of",
                "against",
                "slope",
                "from",
                "points off the line",
                "power"
            ],
            &slopes(results)
        ),
        figure(longest_ahead(results))
    )
}

fn night_part(night: &Night) -> String {
    let [one, two] = [&night.one, &night.two].map(|times| Spread::of(night.per_second(times)));
    let row = |cores: &str, spread: Spread| vec![cores.to_string(), spread.to_string()];
    format!(
        "## Many depots\n\n\
         `sheet` on {} lists of 10 to 400 banks, every second one with ranks, {} bytes on average, \
         by the command in README.md under `xargs -P 1`\nand `xargs -P 2`, {} times in turn. All \
         sheets are compared. Two processes do {} times as many a second as one, on a machine of {} \
         processors:\n\n{}",
        night.lists,
        night.bytes / night.lists,
        night.one.len(),
        Spread::ratio(&night.one, &night.two),
        night.processors,
        table(
            &["processes at a time", "lists a second"],
            &[row("1", one), row("2", two)]
        )
    )
}
