//! Random runs of calls, accepted and refused, with a total kept beside them that is counted from the
//! calls and their answers alone: the tally's clashes and the foot's last number are that total.

use crate::call::{Answer, Call};
use crate::pair::Pair;
use crate::plans::any_memory;
use crate::{quick, rounds};
use independent::journal::{journal_of, Entry, Field, Form, FORMS};
use independent::random::Random;
use independent::reach::Edit;
use independent::shelf::{shelf_cells, NAMES};
use std::collections::BTreeSet;

/// The most banks of a run.
const ROOM: usize = 7;

/// A plan that was kept: its banks and its total.
type Kept = (usize, usize);

/// A run, and what is counted beside it.
struct Run {
    pair: Pair,
    /// The banks and the total, once a plan is open.
    count: Option<Kept>,
    /// What the run kept in each place and cannot have overwritten.
    kept: [Option<Kept>; 3],
}

/// What came up: accepted calls that changed the total, refused ones, those refused for the cap,
/// returns, passes refused late.
#[derive(Debug, Default)]
struct Seen {
    edits: usize,
    refused: usize,
    capped: usize,
    returns: usize,
    late: usize,
    struck_by_d: usize,
}

/// A number of a bank or a row that is often one of the plan.
fn bank(random: &mut Random) -> u16 {
    random.below(ROOM + 1) as u16
}

fn any_edit(random: &mut Random) -> Entry {
    let edit = *random.pick(&[Edit::Add, Edit::Add, Edit::Strike]);
    let (a, b) = (bank(random), bank(random));
    Entry { edit, a, b }
}

/// A K row, which is refused after an edit.
fn any_rank(random: &mut Random, n: usize) -> String {
    let (b, rank) = (random.below(n.max(1)), random.below(10_000));
    format!("K {b} {rank}")
}

/// The fields after the first: ranks, then edits.
fn any_fields(random: &mut Random) -> Vec<Field> {
    let ranks = random.below(3);
    let fields = (0..ranks + random.below(10)).map(|i| match i < ranks {
        true => Field::Rank {
            bank: random.below(ROOM) as u16,
            rank: random.below(10_000) as u16,
        },
        false => Field::Edit(any_edit(random)),
    });
    fields.collect()
}

/// The rows after the first of a list of n banks: ranks, then as a rule edits that can be made.
fn any_rows(random: &mut Random, n: usize) -> Vec<String> {
    let mut listed: BTreeSet<(usize, usize)> = BTreeSet::new();
    let ranks = (0..random.below(3)).map(|_| any_rank(random, n));
    let mut rows: Vec<String> = ranks.collect();
    for _ in 0..random.below(20) {
        let (a, b) = (random.below(n + 1), random.below(n + 1));
        let clash = (a.min(b), a.max(b));
        rows.push(match random.below(30) {
            0 => "N 3".to_string(),
            1 => format!("- {a} {b}"),
            2 => any_rank(random, n),
            3..=5 if b < n => {
                listed.retain(|&(p, q)| p != b && q != b);
                format!("D {b}")
            }
            _ if listed.remove(&clash) => format!("- {a} {b}"),
            _ if a == b || a.max(b) >= n => continue,
            _ => {
                listed.insert(clash);
                format!("+ {a} {b}")
            }
        });
    }
    rows
}

/// The total after these rows, each of which was made.
fn total_of_rows(rows: &[String], seen: &mut Seen) -> usize {
    let mut listed: BTreeSet<(usize, usize)> = BTreeSet::new();
    let mut total = 0;
    for row in rows {
        let numbers = row[2..]
            .split(' ')
            .map(|part| part.parse().expect("a bank"));
        match (&row[..1], &numbers.collect::<Vec<usize>>()[..]) {
            ("+", &[a, b]) => {
                listed.insert((a.min(b), a.max(b)));
                total += 1;
            }
            ("-", &[a, b]) => {
                listed.remove(&(a.min(b), a.max(b)));
                total -= 1;
            }
            ("K", _) => {}
            ("D", &[b]) => {
                let all = listed.len();
                listed.retain(|&(p, q)| p != b && q != b);
                total -= all - listed.len();
                seen.struck_by_d += all - listed.len();
            }
            _ => panic!("accepted: {row}"),
        }
    }
    total
}

/// How many rows or fields after the one that opens the plan, which has this place, were made, if
/// it was opened.
fn made(answer: &Answer, first: usize, all: usize, seen: &mut Seen) -> Option<usize> {
    match (answer.number, answer.results[0]) {
        (0, _) => Some(all),
        (_, place) if place > first => {
            seen.late += 1;
            Some(place - first - 1)
        }
        _ => None,
    }
}

impl Run {
    /// Any memory and any shelf.
    fn begin(random: &mut Random) -> Run {
        let shelf = (0..shelf_cells(ROOM)).map(|_| random.draw() as u16);
        let shelf = shelf.collect();
        Run {
            pair: Pair::with_shelf(any_memory(random, ROOM), shelf, random.draw()),
            count: None,
            kept: [None; 3],
        }
    }

    fn edit(&mut self, edit: Edit, answer: &Answer, seen: &mut Seen) {
        let Some((_, total)) = &mut self.count else {
            return;
        };
        match (answer.number, edit) {
            (0, Edit::Add) => *total += 1,
            (0, Edit::Strike) => *total -= 1,
            (20, _) => return seen.capped += 1,
            _ => return seen.refused += 1,
        }
        seen.edits += 1;
    }

    fn list(&mut self, random: &mut Random, seen: &mut Seen) {
        let n = random.below(ROOM + 2);
        let rows = any_rows(random, n);
        let (start, first) = *random.pick(&[("", 1), ("", 1), ("V 2\n", 2)]);
        let list = format!("{start}N {n}\n{}", rows.join("\n"));
        let answer = self.pair.call(&Call::ReadList(list.into_bytes()));
        if let Some(made) = made(&answer, first, rows.len(), seen) {
            self.count = Some((n, total_of_rows(&rows[..made], seen)));
        }
    }

    fn replay(&mut self, random: &mut Random, seen: &mut Seen) {
        let n = random.below(ROOM + 2);
        let fields = any_fields(random);
        let form = *random.pick(&FORMS);
        let journal = journal_of(form, n as u16, &fields);
        let answer = self.pair.call(&Call::Replay(journal));
        if let Some(made) = made(&answer, 1, fields.len(), seen) {
            let are = |edit: Edit| {
                let are =
                    |field: &&Field| matches!(field, Field::Edit(entry) if entry.edit == edit);
                fields[..made].iter().filter(are).count()
            };
            self.count = Some((n, are(Edit::Add) - are(Edit::Strike)));
        }
    }

    /// A keeping can overwrite what is kept of another bank count.
    fn keep(&mut self, place: usize) {
        let answer = self.pair.call(&Call::Keep(NAMES[place].to_vec()));
        if answer.number != 0 {
            return;
        }
        let now = self.count;
        for kept in &mut self.kept {
            *kept = kept.filter(|kept| now.map(|now| now.0) == Some(kept.0));
        }
        self.kept[place] = now;
    }

    /// Whether the run is still one of its own plans.
    fn come_back(&mut self, place: usize, seen: &mut Seen) -> bool {
        let answer = self.pair.call(&Call::ComeBack(NAMES[place].to_vec()));
        if answer.number != 0 {
            return true;
        }
        let banks = self.count.map(|count| count.0);
        let kept = self.kept[place].filter(|kept| Some(kept.0) == banks);
        seen.returns += usize::from(kept.is_some());
        self.count = kept;
        kept.is_some()
    }

    /// One call, and whether the run is still one of its own plans.
    fn step(&mut self, random: &mut Random, seen: &mut Seen) -> bool {
        let n = random.below(ROOM + 2) as u16;
        let place = random.below(3);
        match random.below(26) {
            0 => {
                if self.pair.call(&Call::Open(n)).number == 0 {
                    self.count = Some((usize::from(n), 0));
                }
            }
            1 => self.list(random, seen),
            2 => self.replay(random, seen),
            3 | 4 => {
                let banks = self.pair.model.tally.banks;
                if self.pair.call(&Call::OpenShelf(banks)).number == 0 {
                    self.kept = [None; 3];
                }
            }
            5 | 6 => self.keep(place),
            7 | 8 => return self.come_back(place, seen),
            9 | 10 => {
                let cap = random.below(5) as u16;
                self.pair.call(&Call::SetCap(cap));
            }
            11..=14 => {
                let entry = any_edit(random);
                let mut journal = journal_of::<Entry>(Form::Numbered, n, &[]);
                let size = journal.len();
                journal.extend([0; 11]);
                let answer = self.pair.call(&Call::Record(entry, journal, size));
                self.edit(entry.edit, &answer, seen);
            }
            _ => {
                let Entry { edit, a, b } = any_edit(random);
                let answer = self.pair.call(&match edit {
                    Edit::Add => Call::Add(a, b),
                    Edit::Strike => Call::Strike(a, b),
                });
                self.edit(edit, &answer, seen);
            }
        }
        true
    }

    /// The tally and the foot of the sheet are those counted.
    fn adds_up(&mut self) {
        let Some((banks, total)) = self.count else {
            return;
        };
        let tally = &self.pair.model.tally;
        let found = (usize::from(tally.banks), usize::from(tally.clashes));
        assert_eq!(found, (banks, total), "the tally");
        let answer = self.pair.call(&Call::WriteSheet(200));
        let sheet = &answer.output[..answer.results[0]];
        let foot = format!("\nTOTAL {banks} {total}\n");
        assert!(sheet.ends_with(foot.as_bytes()), "the foot");
    }
}

#[test]
fn runs_with_a_total_beside_them() {
    let mut random = Random::new(151);
    let mut seen = Seen::default();
    for _ in 0..rounds(400) {
        let mut run = Run::begin(&mut random);
        for _ in 0..60 {
            if !run.step(&mut random, &mut seen) {
                break;
            }
            run.adds_up();
        }
    }
    let Seen {
        edits,
        refused,
        capped,
        returns,
        late,
        struck_by_d,
    } = seen;
    let counts = [edits, refused, capped, returns, late, struck_by_d];
    let least = counts.into_iter().min().expect("six counts");
    assert!(quick() || least > 50, "{seen:?}");
}
