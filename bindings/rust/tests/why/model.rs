//! Explanations of random edits against the model: its own conditions on the trail, its own order and
//! its own waves, before and after the edit.

use crate::edited;
use independent::graph::{self, Graph};
use independent::plan::MAX_DEGREE;
use independent::random::Random;
use independent::ranks::drawn_ranks;
use independent::reach::{reach, Change, Edit};
use wave_plan::{Bank, Choice, Explanation, Kind, LastEdit, Order, Place, Plan, Reason, Wave};

#[test]
fn random_edits() {
    let mut random = Random::new(291);
    let mut seen = Seen::default();
    for _ in 0..200 {
        let mut graph = any_graph(&mut random);
        let mut plan = plan_of(&graph);
        for _ in 0..30 {
            let (kind, a, b) = due_edit(&mut random, &graph);
            let (after, last) = edited(&plan, kind, bank(a), bank(b));
            graph = check_edit(&graph, &last, &mut seen);
            plan = after;
        }
    }
    seen.enough();
}

/// 2 to 60 banks, few clashes or many, all of rank 0 or ranks of any kind.
fn any_graph(random: &mut Random) -> Graph {
    let n = random.between(2, 60);
    let hot = random.between(2, n.min(30));
    let tries = random.below(12 * n);
    let mut graph = Graph::empty(n);
    for _ in 0..tries {
        let range = if random.one_in(3) { n } else { hot };
        let (a, b) = (random.below(range), random.below(range));
        if a != b && has_room(&graph, a, b) {
            graph = graph.with(a, b);
        }
    }
    let ranks = if random.one_in(2) {
        vec![0; n]
    } else {
        drawn_ranks(random, n)
    };
    graph.with_ranks(ranks)
}

fn has_room(graph: &Graph, a: graph::Bank, b: graph::Bank) -> bool {
    graph.degree(a) < MAX_DEGREE && graph.degree(b) < MAX_DEGREE
}

/// The library's plan of a graph.
fn plan_of(graph: &Graph) -> Plan {
    let n = graph.banks();
    let mut list = format!("N {n}");
    (0..n).for_each(|b| list += &format!("\nK {b} {}", graph.rank(b)));
    for b in 0..n {
        let smaller = graph.neighbours(b).filter(|&q| q < b);
        smaller.for_each(|q| list += &format!("\n+ {q} {b}"));
    }
    Plan::read_list(list.as_bytes()).expect("a list")
}

/// An edit to which no refusal is due.
fn due_edit(random: &mut Random, graph: &Graph) -> (Kind, graph::Bank, graph::Bank) {
    loop {
        let a = random.below(graph.banks());
        let neighbours: Vec<graph::Bank> = graph.neighbours(a).collect();
        if !neighbours.is_empty() && random.one_in(2) {
            return (Kind::Striking, a, *random.pick(&neighbours));
        }
        let b = random.below(graph.banks());
        if a != b && !graph.clash(a, b) && has_room(graph, a, b) {
            return (Kind::Adding, a, b);
        }
        if graph.degree(a) + 1 == graph.banks() {
            return (Kind::Striking, a, *random.pick(&neighbours));
        }
    }
}

/// All that is said of an edit, bank by bank. The answer is the graph after it.
fn check_edit(old: &Graph, last: &LastEdit, seen: &mut Seen) -> Graph {
    let (a, b) = last.banks();
    let (a, b) = (usize::from(a.0), usize::from(b.0));
    let (edit, new) = match last.kind() {
        Kind::Adding => (Edit::Add, old.with(a, b)),
        Kind::Striking => (Edit::Strike, old.without(a, b)),
    };
    let reached = reach(edit, a, b, old, &new);
    let model = Model {
        named: [a, b],
        change: Change::new(edit, a, b, old, &new),
        old: Side::of(old),
        new: Side::of(&new),
    };
    for x in 0..new.banks() {
        let said = last.explain(bank(x)).expect("a bank of the plan");
        assert_eq!(said.reasons, model.reasons(x), "{said:?}");
        assert_eq!(said.taken_up, reached.trail.contains(&x), "{said:?}");
        assert_eq!(said.taken_up, !said.reasons.is_empty(), "{said:?}");
        assert_eq!(said.kept, model.kept(x), "{said:?}");
        assert_eq!(said.now, model.new.choice(x), "{said:?}");
        let moved = reached.moved.contains(&x);
        assert_eq!(said.before, moved.then(|| model.old.choice(x)));
        check_text(&said);
        seen.count(&said);
    }
    assert_eq!(last.explain(bank(new.banks())), None);
    new
}

/// What the model says of an edit.
struct Model<'a> {
    named: [graph::Bank; 2],
    change: Change<'a>,
    old: Side<'a>,
    new: Side<'a>,
}

impl Model<'_> {
    /// The conditions that hold for x, in the order of an explanation.
    fn reasons(&self, x: graph::Bank) -> Vec<Reason> {
        let mut reasons = Vec::new();
        if self.change.named(x) {
            reasons.push(Reason::Named);
        }
        for c in self.named {
            if self.change.turned_over(x, c) {
                let (before, now) = (self.old.towards(x, c), self.new.towards(x, c));
                reasons.push(Reason::Turned { before, now });
            }
        }
        for &q in &self.new.order {
            if self.change.after_moved(x, q) {
                reasons.push(Reason::LaterThan {
                    bank: bank(q),
                    from: wave(self.old.waves[q]),
                    to: wave(self.new.waves[q]),
                });
            }
        }
        reasons
    }

    /// The orders of x that did not turn over, towards named banks that it clashes with.
    fn kept(&self, x: graph::Bank) -> Vec<Order> {
        let (old, new) = (self.old.graph, self.new.graph);
        let clashing = self.named.into_iter().filter(|&c| new.clash(x, c));
        let kept = clashing.filter(|&c| old.earlier(x, c) == new.earlier(x, c));
        kept.map(|c| self.new.towards(x, c)).collect()
    }
}

/// The model before or after an edit.
struct Side<'a> {
    graph: &'a Graph,
    order: Vec<graph::Bank>,
    waves: Vec<graph::Wave>,
}

impl Side<'_> {
    fn of(graph: &Graph) -> Side<'_> {
        Side {
            graph,
            order: graph.order(),
            waves: graph.waves(),
        }
    }

    /// The order of x towards another bank. Who is earlier is the model's answer.
    fn towards(&self, x: graph::Bank, other: graph::Bank) -> Order {
        let place = |b: graph::Bank| Place {
            clashes: self.graph.degree(b),
            rank: self.graph.rank(b) as u16,
            bank: bank(b),
        };
        let order = Order {
            own: place(x),
            other: place(other),
        };
        assert_eq!(order.is_earlier(), self.graph.earlier(x, other));
        order
    }

    /// The wave of x, and for each lower one the first bank of the order that clashes with x, is
    /// earlier and holds it.
    fn choice(&self, x: graph::Bank) -> Choice {
        let holder = |lower: graph::Wave| {
            let earlier = |q| self.graph.clash(q, x) && self.graph.earlier(q, x);
            let holds = |&&q: &&graph::Bank| self.waves[q] == lower && earlier(q);
            let holder = self.order.iter().find(holds).expect("lowest free wave");
            (wave(lower), bank(*holder))
        };
        Choice {
            wave: wave(self.waves[x]),
            held: (0..self.waves[x]).map(holder).collect(),
        }
    }
}

/// The text says whether the bank was taken up, and speaks of ranks only where they decide.
fn check_text(said: &Explanation) {
    let text = said.to_string();
    let not = if said.taken_up { "" } else { "not " };
    let start = format!("bank {} was {not}taken up", said.bank.0);
    assert!(text.starts_with(&start), "{text}");
    assert_eq!(
        text.contains("rank"),
        said.reasons.iter().any(by_rank),
        "{text}"
    );
}

/// Whether a rank decides in an order that turned over.
fn by_rank(reason: &Reason) -> bool {
    let decides = |order: &Order| {
        order.own.clashes == order.other.clashes && order.own.rank != order.other.rank
    };
    match reason {
        Reason::Turned { before, now } => decides(before) || decides(now),
        _ => false,
    }
}

fn bank(b: graph::Bank) -> Bank {
    Bank(b as u16)
}

fn wave(w: graph::Wave) -> Wave {
    Wave(w as u16)
}

/// How often each thing came up.
#[derive(Debug, Default)]
struct Seen {
    named: [usize; 2],
    turned: [usize; 2],
    turned_twice: usize,
    by_rank: usize,
    named_and_later: usize,
    turned_and_later: usize,
    many_movers: usize,
    kept: usize,
    left_alone: usize,
    highest_wave: u16,
}

impl Seen {
    fn count(&mut self, said: &Explanation) {
        let of = |wanted: fn(&Reason) -> bool| said.reasons.iter().filter(|r| wanted(r)).count();
        let named = of(|reason| matches!(reason, Reason::Named));
        let turned = of(|reason| matches!(reason, Reason::Turned { .. }));
        let later = of(|reason| matches!(reason, Reason::LaterThan { .. }));
        let kind = said.kind as usize;
        self.named[kind] += named;
        self.turned[kind] += turned;
        self.turned_twice += usize::from(turned == 2);
        self.by_rank += of(by_rank);
        self.named_and_later += usize::from(named > 0 && later > 0);
        self.turned_and_later += usize::from(turned > 0 && later > 0);
        self.many_movers += usize::from(later > 3);
        self.kept += said.kept.len();
        self.left_alone += usize::from(!said.taken_up);
        self.highest_wave = self.highest_wave.max(said.now.wave.0);
    }

    /// The test would be weak if one of these seldom came up.
    fn enough(&self) {
        let [added, struck] = self.named;
        assert!(added > 1000 && struck > 1000, "{self:?}");
        let [by_adds, by_strikes] = self.turned;
        let often = [
            by_adds,
            by_strikes,
            self.turned_twice,
            self.by_rank,
            self.named_and_later,
            self.turned_and_later,
            self.many_movers,
            self.kept,
            self.left_alone,
        ];
        assert!(often.iter().all(|&times| times > 100), "{self:?}");
        assert!(self.highest_wave > 12, "{self:?}");
    }
}
