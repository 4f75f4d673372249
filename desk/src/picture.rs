//! The picture of a plan as an SVG: the banks in a column for each wave, the clashes as lines, and what
//! the last edit did to them.
//!
//! Marks differ in shape and brightness as well as in colour: banks taken up have a thick outline, those
//! that moved are filled, those that the row names stand in a square. Clashes are drawn below the
//! banks and slightly bent, so that none seems to end at a bank that it only passes.

mod layout;
mod legend;

use layout::Layout;
use std::iter;
use wave_plan::{Bank, Kind, LastEdit, Plan, Wave};

/// Plans of so many banks have numbers in any case.
const SMALL_PLAN: u16 = 64;

/// A line is bent away from its middle by one part in so many of its length and some units more, but
/// by no more than so many.
const BEND: (f64, f64, f64) = (16.0, 6.0, 50.0);

// Blue and vermilion: the colour-blind tell them apart, and in print they are of different grey.
const COLUMN: &str = r##"fill="#F1F1F1""##;
const PLAIN: &str = r##"fill="#FFFFFF" stroke="#555555" stroke-width="1""##;
const TAKEN_UP: &str = r##"fill="#FFFFFF" stroke="#D55E00" stroke-width="3""##;
const MOVED: &str = r##"fill="#005A8C" stroke="#D55E00" stroke-width="3""##;
const NAMED: &str = r##"fill="none" stroke="#000000" stroke-width="1.5""##;
const ADDED: &str = r##"fill="none" stroke="#000000" stroke-width="2""##;
const STRUCK: &str = r##"fill="none" stroke="#000000" stroke-width="2" stroke-dasharray="5 4""##;

/// Letters have a white edge, so that lines behind them do not touch them.
const SET_OFF: &str = r##"stroke="#FFFFFF" stroke-width="4" paint-order="stroke""##;

/// How the last edit left a bank.
#[derive(Clone, Copy, PartialEq, Eq)]
enum Mark {
    Plain,
    TakenUp,
    Moved,
}

/// The SVG of a plan. The last edit is shown if it led to this plan. Numbers are drawn in small plans,
/// and in others if they are asked for.
pub fn svg(plan: &Plan, last: Option<&LastEdit>, numbers: bool) -> String {
    let last = last.filter(|last| last.led_to(plan));
    Picture::new(plan, last, numbers).drawn()
}

struct Picture<'a> {
    plan: &'a Plan,
    last: Option<&'a LastEdit>,
    marks: Vec<Mark>,
    layout: Layout,
    numbers: bool,
}

impl Picture<'_> {
    fn new<'a>(plan: &'a Plan, last: Option<&'a LastEdit>, numbers: bool) -> Picture<'a> {
        let waves = plan.waves();
        let small = plan.banks() <= SMALL_PLAN;
        let mut marks = vec![Mark::Plain; waves.len()];
        if let Some(last) = last {
            let edit = last.edit();
            let mut put = |banks: &[Bank], mark| {
                banks.iter().for_each(|b| marks[usize::from(b.0)] = mark);
            };
            put(&edit.trail, Mark::TakenUp);
            put(&edit.moved, Mark::Moved);
        }
        Picture {
            plan,
            last,
            layout: Layout::new(&waves, plan.wave_count().into(), small),
            marks,
            numbers: numbers || small,
        }
    }

    fn drawn(&self) -> String {
        let legend = legend::Legend::new(self);
        let (width, height) = (self.layout.width, legend.bottom());
        let head = format!(
            "<svg xmlns=\"http://www.w3.org/2000/svg\" viewBox=\"0 0 {width} {height}\" \
             role=\"img\" aria-labelledby=\"title description\" font-family=\"sans-serif\">\n\
             <title id=\"title\">{}</title>\n<desc id=\"description\">{}</desc>\n\
             <rect width=\"{width}\" height=\"{height}\" fill=\"#FFFFFF\"/>\n",
            self.title(),
            self.description()
        );
        let parts = [
            head,
            self.columns(),
            self.clashes(),
            self.banks(),
            self.letters(),
            self.numbers(),
            legend.drawn(),
            "</svg>\n".to_string(),
        ];
        parts.concat()
    }

    /// What the plan is, and the edit that led to it.
    fn title(&self) -> String {
        let (banks, clashes) = (self.plan.banks(), self.plan.clashes());
        let waves = self.plan.wave_count();
        let edit = self
            .last
            .map(|last| format!(", after {}", last.kind().row(last.banks())));
        let edit = edit.unwrap_or_default();
        format!("{banks} banks, {clashes} clashes, {waves} waves{edit}")
    }

    /// One line in words.
    fn description(&self) -> String {
        let sizes = self.layout.columns.iter().zip(0..);
        let sizes: Vec<String> = sizes
            .map(|(column, wave)| format!("{} {}", Wave(wave).letter(), column.banks.len()))
            .collect();
        let mut line = "Banks in a column for each wave, clashes as lines.".to_string();
        if !sizes.is_empty() {
            line += &format!(" Banks in each wave: {}.", sizes.join(", "));
        }
        if let Some(last) = self.last {
            let edit = last.edit();
            let (trail, moved) = (edit.trail.len(), edit.moved.len());
            line += &format!(
                " {}: {trail} taken up, {moved} moved.",
                last.kind().row(last.banks())
            );
        }
        line
    }

    fn columns(&self) -> String {
        let fields = self.layout.columns.iter().map(|column| {
            let (left, top) = (column.left, column.top);
            let size = format!("width=\"{}\" height=\"{}\"", column.width, column.height);
            format!("<rect x=\"{left}\" y=\"{top}\" {size} rx=\"6\"/>\n")
        });
        group("columns", COLUMN, fields)
    }

    /// The letters above the columns, set off from lines behind them, and the title.
    fn letters(&self) -> String {
        let layout = &self.layout;
        let letters = (0..).zip(&layout.columns).map(|(wave, column)| {
            let (x, y) = (column.left + column.width / 2, column.top - layout.text / 2);
            text(x, y, &Wave(wave).letter().to_string())
        });
        let title = text(layout.width / 2, 2 * layout.text, &self.title());
        let style = |size: i32| format!("font-size=\"{size}\" text-anchor=\"middle\" {SET_OFF}");
        group("letters", &style(3 * layout.text / 2), letters)
            + &group("heading", &style(layout.text), iter::once(title))
    }

    /// The clashes, those of two banks taken up above the others, and that of the edit above all.
    fn clashes(&self) -> String {
        let (mut plain, mut taken_up, mut added) = (Vec::new(), Vec::new(), Vec::new());
        for a in (0..self.plan.banks()).map(Bank) {
            for b in self.plan.neighbours_of(a).into_iter().filter(|b| a < *b) {
                let line = self.line(&format!("clash-{}-{}", a.0, b.0), a, b);
                if self.is_of_edit(a, b) {
                    added.push(line);
                } else if self.mark(a) != Mark::Plain && self.mark(b) != Mark::Plain {
                    taken_up.push(line);
                } else {
                    plain.push(line);
                }
            }
        }
        let struck = self.last.filter(|last| last.kind() == Kind::Striking);
        let struck = struck.map(|last| self.line("struck-clash", last.banks().0, last.banks().1));
        group("clashes", &clash_style(plain.len()), plain)
            + &group(
                "clashes-taken-up",
                &taken_up_style(taken_up.len()),
                taken_up,
            )
            + &group("added", ADDED, added)
            + &group("struck", STRUCK, struck)
    }

    /// A line from the left one of two banks to the right one, bent towards the middle of the picture.
    fn line(&self, id: &str, a: Bank, b: Bank) -> String {
        let mut ends = [self.layout.centre(a), self.layout.centre(b)];
        ends.sort_unstable();
        let [(x, y), (to_x, to_y)] = ends;
        let (dx, dy) = (to_x - x, to_y - y);
        let length = f64::from(dx * dx + dy * dy).sqrt();
        let (part, more, most) = BEND;
        let down = if y + to_y < self.layout.bottom {
            1.0
        } else {
            -1.0
        };
        let bend = down * 2.0 * (length / part + more).min(most) / length;
        let by = |across: i32| (bend * f64::from(across)).round() as i32;
        let (bent_x, bent_y) = (dx / 2 - by(dy), dy / 2 + by(dx));
        format!("<path id=\"{id}\" d=\"M{x} {y}q{bent_x} {bent_y} {dx} {dy}\"/>\n")
    }

    fn is_of_edit(&self, a: Bank, b: Bank) -> bool {
        let banks = self.last.map(LastEdit::banks);
        banks == Some((a, b)) || banks == Some((b, a))
    }

    fn mark(&self, b: Bank) -> Mark {
        self.marks[usize::from(b.0)]
    }

    fn marked(&self, mark: Mark) -> impl Iterator<Item = Bank> + '_ {
        let banks = (0..self.plan.banks()).map(Bank);
        banks.filter(move |&b| self.mark(b) == mark)
    }

    /// The banks, each in the group of its mark, and squares around those that the row names.
    fn banks(&self) -> String {
        let titles = self.titles();
        let circle = |b: Bank| self.circle(b, &titles[usize::from(b.0)]);
        let circles = |mark| self.marked(mark).map(circle);
        let named = self.last.map(|last| [last.banks().0, last.banks().1]);
        let squares = named.into_iter().flatten().map(|b| {
            let (x, y) = self.layout.centre(b);
            square(&format!("named-{}", b.0), x, y, self.radius() + 3)
        });
        group("banks", PLAIN, circles(Mark::Plain))
            + &group("taken-up", TAKEN_UP, circles(Mark::TakenUp))
            + &group("moved", MOVED, circles(Mark::Moved))
            + &group("named", NAMED, squares)
    }

    /// What is shown where a pointer rests on a bank: its letter, or both if it moved.
    fn titles(&self) -> Vec<String> {
        let waves = (0..).zip(self.plan.waves());
        let mut titles: Vec<String> = waves
            .map(|(number, wave): (u16, Wave)| format!("bank {number}: {}", wave.letter()))
            .collect();
        if let Some(last) = self.last {
            for (b, line) in last.edit().moved.iter().zip(last.moved_lines()) {
                titles[usize::from(b.0)] = format!("bank {line}");
            }
        }
        titles
    }

    fn circle(&self, b: Bank, title: &str) -> String {
        let ((x, y), r) = (self.layout.centre(b), self.radius());
        let id = b.0;
        format!("<circle id=\"bank-{id}\" cx=\"{x}\" cy=\"{y}\" r=\"{r}\"><title>{title}</title></circle>\n")
    }

    /// Banks without numbers are smaller, so that more of the lines is seen.
    fn radius(&self) -> i32 {
        if self.numbers {
            10
        } else {
            6
        }
    }

    /// The numbers of the banks, white on those that are filled.
    fn numbers(&self) -> String {
        if !self.numbers {
            return String::new();
        }
        let number = |b: Bank| {
            let ((x, y), id) = (self.layout.centre(b), b.0);
            let small = if id > 999 { " font-size=\"8\"" } else { "" };
            format!("<text x=\"{x}\" y=\"{y}\"{small}>{id}</text>\n")
        };
        let dark = self.marked(Mark::Plain).chain(self.marked(Mark::TakenUp));
        let style = |colour| {
            format!("fill=\"{colour}\" font-size=\"10\" text-anchor=\"middle\" transform=\"translate(0 3.5)\"")
        };
        group("numbers", &style("#000000"), dark.map(number))
            + &group(
                "moved-numbers",
                &style("#FFFFFF"),
                self.marked(Mark::Moved).map(number),
            )
    }
}

/// The lines of so many clashes.
fn clash_style(count: usize) -> String {
    line_style("#333333", count, 0.0)
}

/// The lines of so many clashes of two banks that were both taken up.
fn taken_up_style(count: usize) -> String {
    line_style("#D55E00", count, 0.4)
}

/// Lines are the fainter the more there are.
fn line_style(colour: &str, count: usize, more: f64) -> String {
    let (width, opacity) = match count {
        0..=100 => (1.2, 0.7),
        101..=500 => (1.0, 0.45),
        501..=2000 => (0.8, 0.22),
        2001..=5000 => (0.8, 0.15),
        _ => (0.7, 0.08),
    };
    let width = width + more;
    format!("fill=\"none\" stroke=\"{colour}\" stroke-width=\"{width:.1}\" stroke-opacity=\"{opacity}\"")
}

/// A group of elements that look alike, or nothing if there are none.
fn group(id: &str, style: &str, elements: impl IntoIterator<Item = String>) -> String {
    let elements: String = elements.into_iter().collect();
    if elements.is_empty() {
        return elements;
    }
    format!("<g id=\"{id}\" {style}>\n{elements}</g>\n")
}

fn text(x: i32, y: i32, words: &str) -> String {
    format!("<text x=\"{x}\" y=\"{y}\">{words}</text>\n")
}

fn square(id: &str, x: i32, y: i32, half: i32) -> String {
    let (left, top, side) = (x - half, y - half, 2 * half);
    format!("<rect id=\"{id}\" x=\"{left}\" y=\"{top}\" width=\"{side}\" height=\"{side}\"/>\n")
}
