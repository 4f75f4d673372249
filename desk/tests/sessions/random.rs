//! Random sessions held against the model: the answer to each edit and the waves after it, `D`, ranks and undoing.

use crate::desk_here::Desk;
use crate::support::{after, clash_lines, row, sheet, strikes, undoing, Made};
use independent::graph::{Bank, Graph};
use independent::random::Random;
use independent::reach::{reach, Edit};
use independent::sheet::LETTERS;

/// The lines of an accepted edit.
fn edit_lines(made: Made, old: &Graph, new: &Graph) -> String {
    let (edit, a, b) = made;
    let reach = reach(edit, a, b, old, new);
    let letter = |waves: &[usize], b: Bank| LETTERS.as_bytes()[waves[b]] as char;
    let (before, after) = (old.waves(), new.waves());
    let moved = reach.moved.iter();
    let lines = moved.map(|&x| format!("{x}: {} to {}\n", letter(&before, x), letter(&after, x)));
    let (taken_up, moved) = (reach.trail.len(), reach.moved.len());
    let head = format!("{}: {taken_up} taken up, {moved} moved\n", row(made));
    head + &lines.collect::<String>()
}

/// A desk and the model beside it.
struct Pair {
    desk: Desk,
    graph: Graph,
    made: Vec<Made>,
}

impl Pair {
    /// Says a line that makes these edits in turn.
    fn edits(&mut self, line: &str, edits: &[Made]) {
        let mut expected = String::new();
        for &edit in edits {
            let new = after(&self.graph, edit).expect("an edit that is not refused");
            expected += &edit_lines(edit, &self.graph, &new);
            self.graph = new;
        }
        assert_eq!(self.desk.says(line), expected);
        assert_eq!(self.desk.says("sheet"), sheet(&self.graph));
    }

    /// A random line.
    fn turn(&mut self, random: &mut Random) {
        let n = self.graph.banks();
        let (a, b) = (random.below(n + 1), random.below(n));
        match random.below(10) {
            0 if !strikes(&self.graph, b).is_empty() => {
                let strikes = strikes(&self.graph, b);
                self.edits(&format!("D {b}"), &strikes);
                self.made.extend(strikes);
            }
            1 | 2 if !self.made.is_empty() => {
                let last = self.made.pop().expect("it is not empty");
                self.edits("undo", &[undoing(last)]);
            }
            3..=5 => self.edit((Edit::Strike, a, b)),
            _ => self.edit((Edit::Add, a, b)),
        }
    }

    /// An edit that may be refused.
    fn edit(&mut self, edit: Made) {
        let row = row(edit);
        if after(&self.graph, edit).is_some() {
            self.edits(&row, &[edit]);
            self.made.push(edit);
        } else {
            let said = self.desk.says(&row);
            assert!(said.starts_with(&format!("{row}: refused ")), "{said}");
            assert_eq!(self.desk.says("sheet"), sheet(&self.graph));
        }
    }
}

#[test]
fn sessions() {
    for seed in 0..200 {
        let mut random = Random::new(seed);
        let n = random.between(2, 30);
        let mut pair = Pair {
            desk: Desk::default(),
            graph: Graph::empty(n),
            made: Vec::new(),
        };
        pair.desk.says(&format!("open {n}"));
        for b in 0..n {
            if random.one_in(2) {
                let rank = random.below(5);
                let said = pair.desk.says(&format!("K {b} {rank}"));
                assert_eq!(said, format!("bank {b} has rank {rank}\n"));
                pair.graph = pair.graph.ranked(b, rank);
            }
        }
        let opened = pair.graph.clone();
        for _ in 0..60 {
            pair.turn(&mut random);
        }
        let clashes: Vec<String> = (0..n).map(|b| format!("clashes {b}")).collect();
        assert_eq!(
            pair.desk.says(&clashes.join("\n")),
            clash_lines(&pair.graph)
        );
        while let Some(last) = pair.made.pop() {
            pair.edits("undo", &[undoing(last)]);
        }
        assert_eq!(pair.graph, opened);
    }
}
