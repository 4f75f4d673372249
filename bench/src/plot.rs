//! The plot of ratios: for each plan, the times of the calls relative to a colouring from scratch with
//! a counting sort, on a logarithmic scale, with quartiles.

use crate::edits::{Measured, Times};
use crate::spread::{figure, Spread};
use crate::svg::{dot, line, page, text};

const WIDTH: f64 = 760.0;
const HEIGHT: f64 = 440.0;
const LEFT: f64 = 70.0;
const RIGHT: f64 = 740.0;
const TOP: f64 = 60.0;
const BOTTOM: f64 = 370.0;

/// The times of one kind of call on each plan.
struct Series {
    name: &'static str,
    colour: &'static str,
    /// How far below its point a label stands.
    label: f64,
    spreads: Vec<Spread>,
}

pub fn svg(plans: &[Measured]) -> String {
    let series = [
        series(plans, "core edit", "#1b7f5c", -8.0, |times| &times.core),
        series(plans, "checked edit", "#b3541e", -8.0, |times| {
            &times.checked
        }),
        series(plans, "question 5", "#3a5fa8", 18.0, |times| {
            &times.question
        }),
    ];
    let scale = Scale::around(&series, plans.len());
    let mut svg = page(WIDTH, HEIGHT);
    grid(&mut svg, &scale);
    labels(&mut svg, plans, &scale);
    for (place, series) in series.iter().enumerate() {
        curve(&mut svg, series, &scale);
        legend(&mut svg, series, LEFT + 150.0 * place as f64);
    }
    svg + "</svg>\n"
}

fn series(
    plans: &[Measured],
    name: &'static str,
    colour: &'static str,
    label: f64,
    times: fn(&Times) -> &Vec<f64>,
) -> Series {
    let spread = |plan: &Measured| {
        let of = &plan.ranks_0.times;
        Spread::ratio(times(of), &of.counting_sort)
    };
    Series {
        name,
        colour,
        label,
        spreads: plans.iter().map(spread).collect(),
    }
}

/// Where a ratio and a plan stand: powers of ten from bottom to top, plans from left to right.
struct Scale {
    lowest: i32,
    highest: i32,
    plans: usize,
}

impl Scale {
    fn around(series: &[Series], plans: usize) -> Scale {
        let spreads = || series.iter().flat_map(|series| &series.spreads);
        let low = spreads().map(|spread| spread.low).fold(1.0, f64::min);
        let high = spreads().map(|spread| spread.high).fold(1.0, f64::max);
        Scale {
            lowest: low.log10().floor() as i32,
            highest: (high.log10().ceil() as i32).max(1),
            plans,
        }
    }

    fn y(&self, ratio: f64) -> f64 {
        let (lowest, highest) = (f64::from(self.lowest), f64::from(self.highest));
        let part = (ratio.log10() - lowest) / (highest - lowest);
        BOTTOM - part * (BOTTOM - TOP)
    }

    fn x(&self, plan: usize) -> f64 {
        LEFT + (plan as f64 + 0.5) / self.plans as f64 * (RIGHT - LEFT)
    }
}

fn grid(svg: &mut String, scale: &Scale) {
    for power in scale.lowest..=scale.highest {
        let ratio = 10_f64.powi(power);
        let (y, strong) = (scale.y(ratio), power == 0);
        let colour = if strong { "#444" } else { "#ccc" };
        line(svg, (LEFT, y), (RIGHT, y), colour);
        text(svg, (LEFT - 8.0, y + 4.0), "end", &format!("{ratio}"));
    }
}

fn labels(svg: &mut String, plans: &[Measured], scale: &Scale) {
    for (place, plan) in plans.iter().enumerate() {
        let x = scale.x(place);
        let trail = format!("trail {}", figure(plan.ranks_0.reach.average_trail));
        let clashes = plan.clashes.to_string();
        text(svg, (x, BOTTOM + 20.0), "middle", &clashes);
        text(svg, (x, BOTTOM + 36.0), "middle", &trail);
    }
    let middle = (LEFT + RIGHT) / 2.0;
    let below = "clashes of the plan (1,024 banks), and average trail of its edits";
    text(svg, (middle, BOTTOM + 58.0), "middle", below);
    let above = "time of one call / time of one colouring from scratch (counting sort)";
    text(svg, (LEFT, 22.0), "start", above);
}

/// A point at each median, a line through them, and a bar between the quartiles.
fn curve(svg: &mut String, series: &Series, scale: &Scale) {
    let colour = series.colour;
    let point = |(place, spread): (usize, &Spread)| (scale.x(place), scale.y(spread.median));
    let points: Vec<(f64, f64)> = series.spreads.iter().enumerate().map(point).collect();
    for pair in points.windows(2) {
        line(svg, pair[0], pair[1], colour);
    }
    for (&(x, y), spread) in points.iter().zip(&series.spreads) {
        for ratio in [spread.low, spread.high] {
            let end = scale.y(ratio);
            line(svg, (x, y), (x, end), colour);
            line(svg, (x - 5.0, end), (x + 5.0, end), colour);
        }
        dot(svg, (x, y), colour);
        let label = figure(spread.median);
        text(svg, (x + 9.0, y + series.label), "start", &label);
    }
}

fn legend(svg: &mut String, series: &Series, x: f64) {
    dot(svg, (x + 6.0, 41.0), series.colour);
    text(svg, (x + 16.0, 45.0), "start", series.name);
}
