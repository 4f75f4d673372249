//! The plots of how times grow, and the slopes of their lines.

use crate::chart::{Chart, Series};
use crate::fit::power;
use crate::growth::{Curve, LongList, Questions, STEADY};
use crate::spread::{figure, Spread};
use crate::{edits, Results, TRAIL_40};

const GREEN: &str = "#1b7f5c";
const BROWN: &str = "#b3541e";
const BLUE: &str = "#3a5fa8";
const GREY: &str = "#777";

/// The plots, by the names of their files.
pub fn charts(results: &Results) -> Vec<(&'static str, Chart)> {
    vec![
        ("edit_by_trail.svg", edits_chart(results)),
        ("list_by_rows.svg", lists_chart(results)),
        ("question_by_banks.svg", banks_chart(results)),
        ("question_by_clashes.svg", clashes_chart(results)),
    ]
}

/// The plan whose edits have an average trail of about 40.
pub fn plan_of_40(results: &Results) -> &edits::Measured {
    let plan = results.plans.iter().find(|plan| plan.clashes == TRAIL_40);
    plan.expect("one of the plans")
}

/// The time of a colouring with a counting sort on that plan, with all ranks 0.
fn colouring(results: &Results) -> f64 {
    let times = &plan_of_40(results).ranks_0.times.counting_sort;
    Spread::of(times.iter().copied()).median
}

/// From this trail on a core edit takes longer than a colouring with a counting sort, by the line.
pub fn longest_ahead(results: &Results) -> f64 {
    let line = results.growth.edits[0].line();
    (colouring(results) - line.at_0) / line.slope
}

fn edits_chart(results: &Results) -> Chart {
    let [ranks_0, ranked] = &results.growth.edits;
    let level = colouring(results);
    let furthest = ranks_0.points().iter().map(|&(x, _)| x).fold(0.0, f64::max);
    let mut series = vec![
        straight(ranks_0, BLUE, 1e6, "ns a bank taken up"),
        straight(ranked, BROWN, 1e6, "ns a bank taken up"),
    ];
    series.push(Series {
        name: "one colouring from scratch, counting sort".to_string(),
        colour: GREY,
        points: Vec::new(),
        line: scaled(&[(0.0, level), (furthest, level)], 1e6),
        dashed: true,
    });
    Chart {
        title: "microseconds of one core edit, 1,024 banks, 5,720 clashes",
        across: "banks taken up: the mean of the trails of an edit and its inverse",
        series,
    }
}

fn lists_chart(results: &Results) -> Chart {
    let growth = &results.growth;
    let [ranks_0, ranked] = &growth.steady_lists;
    let (row, bank) = per_row(&growth.long_list);
    let mut series = vec![
        straight(ranks_0, BLUE, 1e3, "ns a row"),
        straight(ranked, BROWN, 1e3, "ns a row"),
    ];
    for series in &mut series {
        series.name = format!("2,048 adds, then strikes and adds in turn, {}", series.name);
    }
    series.push(Series {
        name: format!("the list of 60,000 bytes: {row} ns a row and {bank} ns a bank taken up"),
        colour: GREEN,
        points: scaled(&growth.long_list.curve.points(), 1e3),
        line: scaled(&growth.long_list.followed(), 1e3),
        dashed: false,
    });
    Chart {
        title: "milliseconds of reading a list, 1,024 banks",
        across: "edit rows",
        series,
    }
}

fn banks_chart(results: &Results) -> Chart {
    let banks = &results.growth.banks;
    Chart {
        title: "microseconds of question 5, 5.6 clashes to a bank",
        across: "banks",
        series: question_series(banks, "ns a bank"),
    }
}

fn clashes_chart(results: &Results) -> Chart {
    let clashes = &results.growth.clashes;
    Chart {
        title: "microseconds of question 5, 1,024 banks",
        across: "clashes",
        series: question_series(clashes, "ns a clash"),
    }
}

fn question_series(measured: &Questions, unit: &str) -> Vec<Series> {
    let [ranks_0, ranked] = &measured.question;
    let mut goal: Vec<(f64, f64)> = measured.read.points();
    for (_, y) in &mut goal {
        *y *= 4.0;
    }
    vec![
        straight(ranks_0, BLUE, 1e6, unit),
        straight(ranked, BROWN, 1e6, unit),
        Series {
            name: "four reads of all cells".to_string(),
            colour: GREY,
            points: Vec::new(),
            line: scaled(&goal, 1e6),
            dashed: true,
        },
    ]
}

/// The points of a curve and the straight line through them, with its slope in its name.
fn straight(curve: &Curve, colour: &'static str, scale: f64, unit: &str) -> Series {
    let (points, line) = (curve.points(), curve.line());
    let end = |&(x, _): &(f64, f64)| (x, line.at(x));
    let ends: Vec<(f64, f64)> = [points.first(), points.last()]
        .iter()
        .flatten()
        .map(|point| end(point))
        .collect();
    Series {
        name: format!("{}: {} {unit}", curve.name, figure(line.slope * 1e9)),
        colour,
        points: scaled(&points, scale),
        line: scaled(&ends, scale),
        dashed: false,
    }
}

fn scaled(points: &[(f64, f64)], scale: f64) -> Vec<(f64, f64)> {
    points.iter().map(|&(x, y)| (x, y * scale)).collect()
}

/// What was measured, what with, the slope, where the line starts, how far the points are from it, and
/// the power.
pub fn slopes(results: &Results) -> Vec<Vec<String>> {
    let growth = &results.growth;
    let mut rows: Vec<Vec<String>> = Vec::new();
    let mut add = |what: &str, with: &str, curve: &Curve, unit: &str| {
        let (points, line) = (curve.points(), curve.line());
        let first = points[0].0;
        rows.push(vec![
            format!("{what}, {}", curve.name),
            with.to_string(),
            format!("{} {unit}", figure(line.slope * 1e9)),
            format!("{} µs at {first}", figure(line.at(first) * 1e6)),
            percent(curve.distance()),
            // A list starts with rows of another kind, which are in its time too.
            if first < STEADY as f64 {
                figure(power(&points))
            } else {
                "-".to_string()
            },
        ]);
    };
    for curve in &growth.edits {
        add("a core edit", "its trail", curve, "ns a bank taken up");
    }
    for curve in &growth.steady_lists {
        add(
            "a list, as many clashes",
            "its edit rows",
            curve,
            "ns a row",
        );
    }
    for curve in &growth.banks.question {
        add(
            "question 5, 5.6 clashes a bank",
            "banks",
            curve,
            "ns a bank",
        );
    }
    for curve in &growth.clashes.question {
        add("question 5, 1,024 banks", "clashes", curve, "ns a clash");
    }
    let long = &growth.long_list;
    let (row, bank) = per_row(long);
    rows.push(vec![
        "the list of 60,000 bytes, ranks 0".to_string(),
        "its edit rows and their trails".to_string(),
        format!("{row} ns a row, {bank} ns a bank taken up"),
        "-".to_string(),
        percent(long.distance()),
        figure(power(&long.curve.points())),
    ]);
    rows
}

/// The nanoseconds of a row, and of a bank taken up.
fn per_row(long: &LongList) -> (String, String) {
    let two = long.two();
    (figure(two.first * 1e9), figure(two.second * 1e9))
}

fn percent(part: f64) -> String {
    format!("{:.1} %", 100.0 * part)
}
