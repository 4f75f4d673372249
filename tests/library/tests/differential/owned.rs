//! The plan that owns its memory, in random runs of its calls: each answer and the plan afterwards are the model's.

use crate::plans::{bank_count, graph};
use crate::{quick, rounds};
use independent::journal::{started, Entry, Form};
use independent::memory::Memory;
use independent::random::Random;
use independent::reach::Edit as Kind;
use independent::sheet::sheet_text;
use independent::shelf::{open_shelf, shelf_cells};
use wave_plan::{Bank, Edit, Name, Plan, Refused, Shelf, Wave};

/// A plan with its shelf and its journal, and the model's.
struct Pair {
    plan: Plan,
    shelf: Shelf,
    journal: Vec<u8>,
    model: Memory,
    model_shelf: Vec<u16>,
    model_journal: Vec<u8>,
}

/// The number of an answer, 0 for accepted.
fn number<T>(answer: &Result<T, Refused>) -> u16 {
    answer.as_ref().map_or_else(Refused::number, |_| 0)
}

fn banks(cells: &[u16]) -> Vec<Bank> {
    cells.iter().copied().map(Bank).collect()
}

impl Pair {
    /// The plan of a random graph, replayed from the journal that the model starts for it.
    fn drawn(random: &mut Random, most: usize) -> Pair {
        let n = bank_count(random, most);
        let graph = graph(random, n);
        let journal = started(&graph);
        let (plan, left_over) = Plan::replay(&journal).expect("replayed");
        assert_eq!(left_over, 0);
        let mut model = Memory::filled(n, 7);
        model.store_plan(&graph);
        let mut model_shelf = vec![7; shelf_cells(n)];
        open_shelf(&mut model_shelf, n as u16);
        Pair {
            plan,
            shelf: Shelf::open(n as u16).expect("a shelf"),
            journal: journal.clone(),
            model,
            model_shelf,
            model_journal: journal,
        }
    }

    /// A random call. The answer is its number.
    fn call(&mut self, random: &mut Random) -> u16 {
        let name = *random.pick(&Name::ALL);
        match random.below(12) {
            0 => {
                let answer = self.plan.keep(&mut self.shelf, name);
                let wanted = self.model.keep(&mut self.model_shelf, name.bytes());
                assert_eq!(number(&answer), wanted);
                wanted
            }
            1 => self.come_back(name),
            2 => {
                let cap = random.below(26) as u16;
                let wanted = self.model.set_cap(cap);
                assert_eq!(number(&self.plan.set_cap(cap)), wanted);
                wanted
            }
            3..=7 => self.recorded_edit(random),
            _ => self.edit(random),
        }
    }

    fn come_back(&mut self, name: Name) -> u16 {
        let answer = self.plan.come_back(&self.shelf, name);
        let wanted = self.model.come_back(&self.model_shelf, name.bytes());
        assert_eq!(number(&answer), wanted.number);
        let moved = banks(&self.model.moved[..wanted.moved]);
        assert_eq!(answer.unwrap_or_default(), moved);
        wanted.number
    }

    fn edit(&mut self, random: &mut Random) -> u16 {
        let Entry { edit, a, b } = self.entry(random);
        let (answer, wanted) = match edit {
            Kind::Add => (self.plan.add(Bank(a), Bank(b)), self.model.add(a, b)),
            Kind::Strike => (self.plan.strike(Bank(a), Bank(b)), self.model.strike(a, b)),
        };
        self.compare_edit(answer, wanted.number, wanted.trail, wanted.moved)
    }

    fn recorded_edit(&mut self, random: &mut Random) -> u16 {
        let entry = self.entry(random);
        let (a, b) = (Bank(entry.a), Bank(entry.b));
        let answer = match entry.edit {
            Kind::Add => self.plan.add_recorded(a, b, &mut self.journal),
            Kind::Strike => self.plan.strike_recorded(a, b, &mut self.journal),
        };
        let length = self.model_journal.len();
        let entry_bytes = Form::Numbered.entry_bytes();
        self.model_journal.resize(length + entry_bytes, 0);
        let wanted = self.model.record(entry, &mut self.model_journal, length);
        let accepted = wanted.number == 0;
        self.model_journal
            .truncate(if accepted { wanted.length } else { length });
        assert_eq!(self.journal, self.model_journal);
        self.compare_edit(answer, wanted.number, wanted.trail, wanted.moved)
    }

    /// An edit of two banks, one of which may not be there.
    fn entry(&self, random: &mut Random) -> Entry {
        let n = usize::from(self.plan.banks());
        Entry {
            edit: *random.pick(&[Kind::Add, Kind::Strike]),
            a: random.below(n + 1) as u16,
            b: random.below(n.min(9) + 1) as u16,
        }
    }

    fn compare_edit(
        &self,
        answer: Result<Edit, Refused>,
        wanted: u16,
        trail: usize,
        moved: usize,
    ) -> u16 {
        assert_eq!(number(&answer), wanted);
        if let Ok(edit) = answer {
            assert_eq!(edit.trail, banks(&self.model.trail[..trail]));
            assert_eq!(edit.moved, banks(&self.model.moved[..moved]));
        }
        wanted
    }

    /// The plan is the model's, by all that it tells.
    fn compare(&self) {
        let (plan, model) = (&self.plan, &self.model);
        let graph = model.held_graph().expect("a plan");
        let tally = [plan.banks(), plan.clashes(), plan.wave_count(), plan.cap()];
        let wanted = &model.tally;
        assert_eq!(
            tally,
            [wanted.banks, wanted.clashes, wanted.waves, wanted.cap]
        );
        let waves: Vec<Wave> = model.waves.iter().copied().map(Wave).collect();
        assert_eq!((plan.waves(), plan.ranks()), (waves, &model.ranks[..]));
        assert_eq!(plan.wave_bound().map(usize::from), Ok(graph.wave_bound()));
        for b in 0..=plan.banks() {
            let row = banks(model.clashes_of(b));
            assert_eq!(plan.neighbours_of(Bank(b)), row);
            assert_eq!(plan.clashes_of(Bank(b)).unwrap_or_default(), row);
            assert_eq!(number(&plan.wave_of(Bank(b))), model.wave_of(b).number);
        }
        let sheet = sheet_text(&graph.waves(), graph.clashes());
        assert_eq!(plan.sheet(), Ok(sheet));
        assert_eq!(plan.start_journal(), Ok(started(&graph)));
    }
}

#[test]
fn runs_of_owned_plans() {
    let mut random = Random::new(251);
    let mut seen = [0; 28];
    for _ in 0..rounds(60) {
        let mut pair = Pair::drawn(&mut random, 30);
        for _ in 0..40 {
            seen[usize::from(pair.call(&mut random))] += 1;
            pair.compare();
        }
    }
    let due = [0, 4, 5, 6, 7, 8, 17, 19, 20];
    assert!(due.iter().all(|&i| seen[i] > 0) || quick(), "{seen:?}");
}
