//! Plots of times against what they should grow with: measured points, and the lines that they should
//! follow, both scales from 0.

use crate::svg::{dot, line, page, path, text};

const WIDTH: f64 = 760.0;
const HEIGHT: f64 = 460.0;
const LEFT: f64 = 70.0;
const RIGHT: f64 = 740.0;
const BOTTOM: f64 = 400.0;
/// Where the names of the series start, and the space between them.
const NAMES: f64 = 46.0;
const NAME: f64 = 18.0;

pub struct Chart {
    pub title: &'static str,
    pub across: &'static str,
    pub series: Vec<Series>,
}

/// Points, or a line, or both; seconds are drawn as the chart's unit.
pub struct Series {
    pub name: String,
    pub colour: &'static str,
    pub points: Vec<(f64, f64)>,
    pub line: Vec<(f64, f64)>,
    pub dashed: bool,
}

impl Chart {
    pub fn svg(&self) -> String {
        let scale = Scale::around(&self.series);
        let mut svg = page(WIDTH, HEIGHT);
        text(&mut svg, (LEFT, 22.0), "start", self.title);
        scale.grid(&mut svg);
        let middle = (LEFT + RIGHT) / 2.0;
        text(&mut svg, (middle, BOTTOM + 44.0), "middle", self.across);
        for (place, series) in self.series.iter().enumerate() {
            series.draw(&mut svg, &scale);
            series.legend(&mut svg, NAMES + NAME * place as f64);
        }
        svg + "</svg>\n"
    }
}

impl Series {
    fn draw(&self, svg: &mut String, scale: &Scale) {
        let at = |points: &[(f64, f64)]| -> Vec<(f64, f64)> {
            points.iter().map(|&point| scale.at(point)).collect()
        };
        for point in at(&self.points) {
            dot(svg, point, self.colour);
        }
        if !self.line.is_empty() {
            path(svg, &at(&self.line), self.colour, self.dashed);
        }
    }

    fn legend(&self, svg: &mut String, y: f64) {
        if self.points.is_empty() {
            let ends = [(LEFT - 2.0, y - 4.0), (LEFT + 16.0, y - 4.0)];
            path(svg, &ends, self.colour, self.dashed);
        } else {
            dot(svg, (LEFT + 7.0, y - 4.0), self.colour);
        }
        text(svg, (LEFT + 22.0, y), "start", &self.name);
    }
}

/// From 0 to the highest of both, with steps that read well.
struct Scale {
    across: Axis,
    up: Axis,
    top: f64,
}

impl Scale {
    fn around(series: &[Series]) -> Scale {
        let points = || series.iter().flat_map(|s| s.points.iter().chain(&s.line));
        Scale {
            across: Axis::to(points().map(|&(x, _)| x).fold(0.0, f64::max)),
            up: Axis::to(points().map(|&(_, y)| y).fold(0.0, f64::max)),
            top: NAMES + NAME * series.len() as f64,
        }
    }

    fn at(&self, (x, y): (f64, f64)) -> (f64, f64) {
        (
            LEFT + self.across.part(x) * (RIGHT - LEFT),
            BOTTOM - self.up.part(y) * (BOTTOM - self.top),
        )
    }

    fn grid(&self, svg: &mut String) {
        for y in self.up.steps() {
            let (left, height) = self.at((0.0, y));
            line(svg, (left, height), (RIGHT, height), "#ddd");
            text(svg, (left - 8.0, height + 4.0), "end", &step_name(y));
        }
        for x in self.across.steps() {
            let (place, bottom) = self.at((x, 0.0));
            line(svg, (place, bottom), (place, bottom + 5.0), "#444");
            text(svg, (place, bottom + 20.0), "middle", &step_name(x));
        }
        line(svg, self.at((0.0, 0.0)), (RIGHT, BOTTOM), "#444");
        line(svg, self.at((0.0, 0.0)), (LEFT, self.top), "#444");
    }
}

struct Axis {
    most: f64,
    step: f64,
}

impl Axis {
    /// Up to the value, in at least five steps of 1, 2 or 5 times a power of ten.
    fn to(most: f64) -> Axis {
        let most = if most > 0.0 { most } else { 1.0 };
        let power = 10_f64.powf((most / 5.0).log10().floor());
        let steps = [5.0, 2.0, 1.0].map(|digit| digit * power);
        let step = steps.into_iter().find(|step| most / step >= 5.0);
        Axis {
            most: most * 1.02,
            step: step.unwrap_or(power),
        }
    }

    fn part(&self, value: f64) -> f64 {
        value / self.most
    }

    fn steps(&self) -> impl Iterator<Item = f64> + '_ {
        let count = (self.most / self.step).floor() as usize;
        (0..=count).map(|step| step as f64 * self.step)
    }
}

/// A step of an axis, without the digits that rounding leaves.
fn step_name(value: f64) -> String {
    let rounded = (value * 1000.0).round() / 1000.0;
    format!("{rounded}")
}
