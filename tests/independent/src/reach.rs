//! The reach of an edit: trail and moved, as functions of the old and the new graph, which have the
//! same ranks.

use crate::graph::{Bank, Graph, Wave};

/// The two edits.
#[derive(Clone, Copy, Debug, PartialEq, Eq)]
pub enum Edit {
    Add,
    Strike,
}

/// The banks taken up and the banks whose rule wave changed, both in the new order.
#[derive(Clone, Debug, PartialEq, Eq)]
pub struct Reach {
    pub trail: Vec<Bank>,
    pub moved: Vec<Bank>,
}

/// An edit of a and b, with the graph and the rule waves before and after it.
pub struct Change<'a> {
    edit: Edit,
    a: Bank,
    b: Bank,
    old: &'a Graph,
    new: &'a Graph,
    old_waves: Vec<Wave>,
    new_waves: Vec<Wave>,
}

/// The reach of the edit of a and b that leads from the old graph to the new one.
pub fn reach(edit: Edit, a: Bank, b: Bank, old: &Graph, new: &Graph) -> Reach {
    let change = Change::new(edit, a, b, old, new);
    let order = new.order();
    let select = |wanted: &dyn Fn(Bank) -> bool| -> Vec<Bank> {
        order.iter().copied().filter(|&x| wanted(x)).collect()
    };
    Reach {
        trail: select(&|x| change.on_trail(x)),
        moved: select(&|x| change.moved(x)),
    }
}

impl<'a> Change<'a> {
    /// The edit of a and b that leads from the old graph to the new one.
    pub fn new(edit: Edit, a: Bank, b: Bank, old: &'a Graph, new: &'a Graph) -> Change<'a> {
        assert_eq!(old.ranks(), new.ranks(), "an edit changes no rank");
        Change {
            edit,
            a,
            b,
            old,
            new,
            old_waves: old.waves(),
            new_waves: new.waves(),
        }
    }

    /// Whether the rule wave of x changed.
    pub fn moved(&self, x: Bank) -> bool {
        self.old_waves[x] != self.new_waves[x]
    }

    /// (i), (ii) or (iii).
    fn on_trail(&self, x: Bank) -> bool {
        let turned = self.turned_over(x, self.a) || self.turned_over(x, self.b);
        self.named(x) || turned || self.new.neighbours(x).any(|q| self.after_moved(x, q))
    }

    /// (i) x is a or b.
    pub fn named(&self, x: Bank) -> bool {
        x == self.a || x == self.b
    }

    /// (ii) x is a neighbour of c after the edit, which is a or b, and was earlier than c and is now
    /// later (add), or was later and is now earlier (strike).
    pub fn turned_over(&self, x: Bank, c: Bank) -> bool {
        let turned = match self.edit {
            Edit::Add => self.old.earlier(x, c) && self.new.earlier(c, x),
            Edit::Strike => self.old.earlier(c, x) && self.new.earlier(x, c),
        };
        self.named(c) && self.new.clash(x, c) && turned
    }

    /// (iii) x is later, in the new order, than q, which clashes with it and whose rule wave changed.
    pub fn after_moved(&self, x: Bank, q: Bank) -> bool {
        self.new.clash(x, q) && self.moved(q) && self.new.earlier(q, x)
    }
}
