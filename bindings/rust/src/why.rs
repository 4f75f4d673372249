//! Why an edit took a bank up or left it alone, and which banks hold the waves below its own.
//!
//! Waves, trail and moved list are what the library's calls answered. Said here is which of the
//! three conditions on the trail hold for a bank:
//!
//! 1. the row of the edit names it;
//! 2. it clashes, after the edit, with one of the two named banks, and its order towards that bank
//!    turned over: it was earlier and is now later (add), or was later and is now earlier (strike);
//! 3. it is later, in the new order, than a clashing bank whose wave changed.

mod text;

use crate::{Bank, Edit, Plan, Wave};
use std::cmp::Reverse;

/// The two kinds of edit.
#[derive(Clone, Copy, Debug, PartialEq, Eq)]
pub enum Kind {
    /// A clash is added.
    Adding,
    /// A clash is struck.
    Striking,
}

impl Kind {
    /// The edit of two banks as the row of a list.
    pub fn row(self, (a, b): (Bank, Bank)) -> String {
        let sign = match self {
            Kind::Adding => '+',
            Kind::Striking => '-',
        };
        format!("{sign} {a} {b}")
    }
}

/// What decides the place of a bank in the rule order.
#[derive(Clone, Copy, Debug, PartialEq, Eq)]
pub struct Place {
    /// Its number of clashes.
    pub clashes: usize,
    /// Its rank.
    pub rank: u16,
    /// The bank.
    pub bank: Bank,
}

impl Place {
    /// The place of a bank of a plan.
    pub fn of(plan: &Plan, b: Bank) -> Place {
        Place {
            clashes: plan.neighbours_of(b).len(),
            rank: plan.ranks()[usize::from(b.0)],
            bank: b,
        }
    }

    /// More clashes, or as many and a smaller rank, or both equal and a smaller number.
    pub fn is_earlier_than(self, other: Place) -> bool {
        self.key() < other.key()
    }

    fn key(self) -> (Reverse<usize>, u16, Bank) {
        (Reverse(self.clashes), self.rank, self.bank)
    }
}

/// The order of a bank towards another one, before or after the edit.
#[derive(Clone, Copy, Debug, PartialEq, Eq)]
pub struct Order {
    /// The place of the bank.
    pub own: Place,
    /// The place of the other one.
    pub other: Place,
}

impl Order {
    /// Whether the bank is earlier than the other one.
    pub fn is_earlier(self) -> bool {
        self.own.is_earlier_than(self.other)
    }

    /// Both places, the earlier one first.
    pub fn earlier_first(self) -> [Place; 2] {
        if self.is_earlier() {
            [self.own, self.other]
        } else {
            [self.other, self.own]
        }
    }
}

/// A condition on the trail that holds for a bank.
#[derive(Clone, Copy, Debug, PartialEq, Eq)]
pub enum Reason {
    /// The row names it.
    Named,
    /// It clashes with a named bank, and its order towards it turned over.
    Turned {
        /// The order before the edit.
        before: Order,
        /// The order after it.
        now: Order,
    },
    /// It is later than a clashing bank whose wave changed.
    LaterThan {
        /// The bank that moved.
        bank: Bank,
        /// Its wave before the edit.
        from: Wave,
        /// Its wave after it.
        to: Wave,
    },
}

/// A bank's wave, and for each lower one the earliest of the earlier clashing banks that hold it.
#[derive(Clone, Debug, PartialEq, Eq)]
pub struct Choice {
    /// The wave.
    pub wave: Wave,
    /// The lower waves, each with the bank that holds it.
    pub held: Vec<(Wave, Bank)>,
}

/// What an edit did to a bank, and why. Its text is that of `LastEdit::why`.
#[derive(Clone, Debug, PartialEq, Eq)]
pub struct Explanation {
    /// The bank.
    pub bank: Bank,
    /// The kind of the edit.
    pub kind: Kind,
    /// The two banks that the edit names.
    pub banks: (Bank, Bank),
    /// Whether the bank is on the trail.
    pub taken_up: bool,
    /// The conditions on the trail that hold for it, in the order above; the last one with each
    /// bank for which it does, in the new order.
    pub reasons: Vec<Reason>,
    /// Its order towards the named banks that it clashes with and towards which it did not turn over.
    pub kept: Vec<Order>,
    /// Its wave after the edit.
    pub now: Choice,
    /// Its wave before the edit, if it moved.
    pub before: Option<Choice>,
}

/// An accepted edit, with copies of what its explanation needs of the plans before and after it.
///
/// ```
/// use wave_plan::{Bank, Kind, LastEdit, Plan};
/// let before = Plan::read_list(b"N 6\n+ 0 4\n+ 0 2\n+ 2 3\n+ 1 3\n+ 1 5\n+ 2 5").unwrap();
/// let mut after = before.clone();
/// let edit = after.strike(Bank(2), Bank(5)).unwrap();
/// let last = LastEdit::new(Kind::Striking, Bank(2), Bank(5), &before, &after, edit);
/// assert_eq!(last.moved_lines(), ["0: B to A", "2: A to B", "3: B to C", "4: A to B"]);
/// let why = "bank 4 was taken up: it is later than a clashing bank that moved: 0 from B to A
///   wave before: A, the lowest free: no earlier clashing bank held it
///   wave now: B, the lowest free: A is held by bank 0";
/// assert_eq!(last.why(Bank(4)).unwrap(), why);
/// ```
#[derive(Clone, Debug)]
pub struct LastEdit {
    kind: Kind,
    banks: (Bank, Bank),
    before: Snapshot,
    after: Snapshot,
    edit: Edit,
}

impl LastEdit {
    /// The edit of a and b that led from the one plan to the other, and its answer.
    pub fn new(kind: Kind, a: Bank, b: Bank, before: &Plan, after: &Plan, edit: Edit) -> LastEdit {
        LastEdit {
            kind,
            banks: (a, b),
            before: Snapshot::of(before),
            after: Snapshot::of(after),
            edit,
        }
    }

    /// Whether it added or struck.
    pub fn kind(&self) -> Kind {
        self.kind
    }

    /// The two banks that its row names.
    pub fn banks(&self) -> (Bank, Bank) {
        self.banks
    }

    /// Its trail and moved list.
    pub fn edit(&self) -> &Edit {
        &self.edit
    }

    /// Whether the plan has the banks, ranks and clashes that the edit led to.
    pub fn led_to(&self, plan: &Plan) -> bool {
        self.after == Snapshot::of(plan)
    }

    /// A line for each bank that moved, in the new order: `0: B to A`.
    pub fn moved_lines(&self) -> Vec<String> {
        let line = |&b: &Bank| {
            let (from, to) = self.letters(b);
            format!("{}: {from} to {to}", b.0)
        };
        self.edit.moved.iter().map(line).collect()
    }

    /// The explanation for bank b as lines of text, without a line feed at the end; None if there
    /// is no such bank.
    pub fn why(&self, b: Bank) -> Option<String> {
        self.explain(b).map(|explanation| explanation.to_string())
    }

    /// The explanations for every bank that moved, in the new order, one below the other.
    pub fn why_moved(&self) -> String {
        if self.edit.moved.is_empty() {
            return "no bank moved".to_string();
        }
        let texts = self.edit.moved.iter().filter_map(|&b| self.why(b));
        texts.collect::<Vec<_>>().join("\n")
    }

    /// The explanation for bank b; None if there is no such bank.
    pub fn explain(&self, b: Bank) -> Option<Explanation> {
        if usize::from(b.0) >= self.after.waves.len() {
            return None;
        }
        let moved = self.edit.moved.contains(&b);
        let (turned, kept) = self.orders(b).partition(|&(was, is)| self.turned(was, is));
        Some(Explanation {
            bank: b,
            kind: self.kind,
            banks: self.banks,
            taken_up: self.edit.trail.contains(&b),
            reasons: self.reasons(b, turned),
            kept: kept.into_iter().map(|(_, is)| is).collect(),
            now: self.after.choice(b),
            before: moved.then(|| self.before.choice(b)),
        })
    }

    /// The letters of a bank before and after the edit.
    fn letters(&self, b: Bank) -> (char, char) {
        (self.before.wave(b).letter(), self.after.wave(b).letter())
    }

    /// The conditions on the trail that hold for b, with its orders that turned over.
    fn reasons(&self, b: Bank, turned: Vec<(Order, Order)>) -> Vec<Reason> {
        let named = b == self.banks.0 || b == self.banks.1;
        let named = named.then_some(Reason::Named);
        let turned = turned
            .into_iter()
            .map(|(before, now)| Reason::Turned { before, now });
        let earlier_moved = |q: &&Bank| self.after.is_earlier_clashing(**q, b);
        let later = self.edit.moved.iter().filter(earlier_moved);
        let later = later.map(|&bank| Reason::LaterThan {
            bank,
            from: self.before.wave(bank),
            to: self.after.wave(bank),
        });
        named.into_iter().chain(turned).chain(later).collect()
    }

    /// The orders of b, before and after the edit, towards the named banks that it clashes with after it.
    fn orders(&self, b: Bank) -> impl Iterator<Item = (Order, Order)> + '_ {
        let named = [self.banks.0, self.banks.1].into_iter();
        let clashing = named.filter(move |c| self.after.row(b).contains(c));
        clashing.map(move |c| (self.before.order(b, c), self.after.order(b, c)))
    }

    /// Whether an order turned over, as the second condition has it.
    fn turned(&self, before: Order, now: Order) -> bool {
        match self.kind {
            Kind::Adding => before.is_earlier() && !now.is_earlier(),
            Kind::Striking => !before.is_earlier() && now.is_earlier(),
        }
    }
}

/// What is kept of a plan: by bank number its wave, its rank and the banks that clash with it.
#[derive(Clone, Debug, PartialEq, Eq)]
struct Snapshot {
    waves: Vec<Wave>,
    ranks: Vec<u16>,
    rows: Vec<Vec<Bank>>,
}

impl Snapshot {
    fn of(plan: &Plan) -> Snapshot {
        let banks = (0..plan.banks()).map(Bank);
        Snapshot {
            waves: plan.waves(),
            ranks: plan.ranks().to_vec(),
            rows: banks.map(|b| plan.neighbours_of(b)).collect(),
        }
    }

    fn wave(&self, b: Bank) -> Wave {
        self.waves[usize::from(b.0)]
    }

    fn row(&self, b: Bank) -> &[Bank] {
        &self.rows[usize::from(b.0)]
    }

    fn place(&self, b: Bank) -> Place {
        Place {
            clashes: self.row(b).len(),
            rank: self.ranks[usize::from(b.0)],
            bank: b,
        }
    }

    fn order(&self, b: Bank, other: Bank) -> Order {
        Order {
            own: self.place(b),
            other: self.place(other),
        }
    }

    /// Whether q clashes with b and is earlier.
    fn is_earlier_clashing(&self, q: Bank, b: Bank) -> bool {
        self.row(b).contains(&q) && self.order(q, b).is_earlier()
    }

    /// The wave of b, and who holds the lower ones.
    fn choice(&self, b: Bank) -> Choice {
        let own = self.wave(b);
        let lower = (0..own.0).map(Wave);
        Choice {
            wave: own,
            held: lower.map(|wave| (wave, self.holder(b, wave))).collect(),
        }
    }

    /// The earliest of the earlier banks that clash with b and hold a wave below its own.
    fn holder(&self, b: Bank, wave: Wave) -> Bank {
        let earlier = self.row(b).iter().copied();
        let earlier = earlier.filter(|&q| self.is_earlier_clashing(q, b));
        earlier
            .filter(|&q| self.wave(q) == wave)
            .min_by_key(|&q| self.place(q).key())
            .expect("a bank's wave is the lowest free one")
    }
}
