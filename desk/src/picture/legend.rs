//! The legend below the columns: a sample of each mark and line that can stand in the picture.

use super::{clash_style, group, square, taken_up_style, text, Picture};
use super::{ADDED, MOVED, NAMED, PLAIN, STRUCK, TAKEN_UP};
use wave_plan::Kind;

/// The shape of a sample.
enum Sample {
    Circle,
    Square,
    Line,
}

struct Entry {
    sample: Sample,
    style: String,
    words: String,
}

pub struct Legend<'a> {
    picture: &'a Picture<'a>,
    entries: Vec<Entry>,
}

impl<'a> Legend<'a> {
    pub fn new(picture: &'a Picture<'a>) -> Legend<'a> {
        let entries = entries(picture);
        Legend { picture, entries }
    }

    /// The entries stand in two columns of so many lines.
    fn lines(&self) -> i32 {
        (self.entries.len() as i32 + 1) / 2
    }

    /// Where a line of entries is, counted from 0.
    fn height_of(&self, line: i32) -> i32 {
        let layout = &self.picture.layout;
        layout.bottom + layout.text * (9 * line + 10) / 5
    }

    /// Where the picture ends.
    pub fn bottom(&self) -> i32 {
        self.height_of(self.lines())
    }

    pub fn drawn(&self) -> String {
        let size = format!("font-size=\"{}\"", self.picture.layout.text);
        let entries = (0..).zip(&self.entries);
        group(
            "legend",
            &size,
            entries.map(|(index, e)| self.entry(index, e)),
        )
    }

    fn entry(&self, index: i32, entry: &Entry) -> String {
        let (width, size) = (self.picture.layout.width, self.picture.layout.text);
        let (column, line) = (index / self.lines(), index % self.lines());
        let x = width / 30 + size + column * width / 2;
        let y = self.height_of(line);
        let sample = match entry.sample {
            Sample::Circle => format!("<circle cx=\"{x}\" cy=\"{y}\" r=\"{}\"/>\n", size / 2),
            Sample::Square => square("sample", x, y, size / 2),
            Sample::Line => format!("<path d=\"M{} {y}h{}\"/>\n", x - size, 2 * size),
        };
        let words = text(x + 3 * size / 2, y + size / 3, &entry.words);
        format!("<g {}>\n{sample}</g>\n{words}", entry.style)
    }
}

fn entries(picture: &Picture) -> Vec<Entry> {
    let entry = |sample, style: &str, words: &str| Entry {
        sample,
        style: style.to_string(),
        words: words.to_string(),
    };
    let clash = entry(Sample::Line, &clash_style(1), "clash");
    let last = match picture.last {
        Some(last) => last,
        None => return vec![entry(Sample::Circle, PLAIN, "bank"), clash],
    };
    let (trail, moved) = (last.edit().trail.len(), last.edit().moved.len());
    let (style, of_edit) = match last.kind() {
        Kind::Adding => (ADDED, "clash added"),
        Kind::Striking => (STRUCK, "clash struck"),
    };
    vec![
        entry(Sample::Circle, PLAIN, "bank not taken up"),
        entry(Sample::Circle, TAKEN_UP, &format!("taken up ({trail})")),
        entry(Sample::Circle, MOVED, &format!("of these moved ({moved})")),
        entry(
            Sample::Square,
            NAMED,
            &format!("named in {}", last.kind().row(last.banks())),
        ),
        clash,
        entry(Sample::Line, &taken_up_style(1), "clash of two taken up"),
        entry(Sample::Line, style, of_edit),
    ]
}
