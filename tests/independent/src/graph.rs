//! Banks and clashes as a graph; the rule order and the rule waves, worked out from scratch.

use std::cmp::{Ordering, Reverse};

/// The number of a bank (a vertex id).
pub type Bank = usize;

/// The number of a wave (a colour).
pub type Wave = usize;

/// The rank of a bank: its place in the street.
pub type Rank = usize;

/// A set of clashes on banks 0 to n-1, and their ranks: by bank, the banks that clash with it,
/// ascending, and its rank.
#[derive(Clone, Debug, PartialEq, Eq)]
pub struct Graph {
    neighbours: Vec<Vec<Bank>>,
    ranks: Vec<Rank>,
}

impl Graph {
    /// n banks without a clash, all of rank 0.
    pub fn empty(n: usize) -> Graph {
        Graph {
            neighbours: vec![Vec::new(); n],
            ranks: vec![0; n],
        }
    }

    /// n banks with the given clashes, all of rank 0.
    pub fn of(n: usize, clashes: impl IntoIterator<Item = (Bank, Bank)>) -> Graph {
        let mut graph = Graph::empty(n);
        for (a, b) in clashes {
            graph.insert(a, b);
        }
        graph
    }

    /// These clashes with other ranks, one for each bank.
    pub fn with_ranks(mut self, ranks: Vec<Rank>) -> Graph {
        assert_eq!(ranks.len(), self.banks());
        self.ranks = ranks;
        self
    }

    /// This graph with the rank of b set.
    pub fn ranked(&self, b: Bank, rank: Rank) -> Graph {
        let mut graph = self.clone();
        graph.ranks[b] = rank;
        graph
    }

    fn insert(&mut self, a: Bank, b: Bank) {
        assert_ne!(a, b, "a clash is a pair of different banks");
        for (p, q) in [(a, b), (b, a)] {
            if let Err(place) = self.neighbours[p].binary_search(&q) {
                self.neighbours[p].insert(place, q);
            }
        }
    }

    /// This graph with the clash of a and b added.
    pub fn with(&self, a: Bank, b: Bank) -> Graph {
        let mut graph = self.clone();
        graph.insert(a, b);
        graph
    }

    /// This graph with the clash of a and b struck.
    pub fn without(&self, a: Bank, b: Bank) -> Graph {
        let mut graph = self.clone();
        graph.neighbours[a].retain(|&q| q != b);
        graph.neighbours[b].retain(|&q| q != a);
        graph
    }

    /// The number of banks.
    pub fn banks(&self) -> usize {
        self.neighbours.len()
    }

    /// The number of clashes. Each is counted at its smaller bank.
    pub fn clashes(&self) -> usize {
        let above = |b: Bank| self.neighbours(b).filter(|&q| b < q).count();
        (0..self.banks()).map(above).sum()
    }

    /// Whether a and b clash.
    pub fn clash(&self, a: Bank, b: Bank) -> bool {
        self.neighbours[a].contains(&b)
    }

    /// The banks that clash with b, ascending.
    pub fn neighbours(&self, b: Bank) -> impl Iterator<Item = Bank> + '_ {
        self.neighbours[b].iter().copied()
    }

    /// The number of banks that clash with b.
    pub fn degree(&self, b: Bank) -> usize {
        self.neighbours[b].len()
    }

    /// The ranks by bank number.
    pub fn ranks(&self) -> &[Rank] {
        &self.ranks
    }

    /// The rank of b.
    pub fn rank(&self, b: Bank) -> Rank {
        self.ranks[b]
    }

    /// Whether p is earlier than q: larger degree, or equal degree and smaller rank, or both equal
    /// and smaller number.
    pub fn earlier(&self, p: Bank, q: Bank) -> bool {
        match self.degree(p).cmp(&self.degree(q)) {
            Ordering::Greater => true,
            Ordering::Equal if self.rank(p) == self.rank(q) => p < q,
            Ordering::Equal => self.rank(p) < self.rank(q),
            Ordering::Less => false,
        }
    }

    /// All banks in the rule order, earliest first.
    pub fn order(&self) -> Vec<Bank> {
        let mut banks: Vec<Bank> = (0..self.banks()).collect();
        banks.sort_unstable_by_key(|&b| (Reverse(self.degree(b)), self.rank(b), b));
        banks
    }

    /// The rule waves by bank number: greedy colouring in the rule order. When a bank's turn
    /// comes, its neighbours that have a wave are its earlier ones.
    pub fn waves(&self) -> Vec<Wave> {
        let mut waves: Vec<Option<Wave>> = vec![None; self.banks()];
        for b in self.order() {
            let held: Vec<Wave> = self.neighbours(b).filter_map(|q| waves[q]).collect();
            waves[b] = Some(lowest_free(&held));
        }
        let given = |wave: Option<Wave>| wave.expect("the order has each bank");
        waves.into_iter().map(given).collect()
    }

    /// The rule wave of b, straight off: the wave of each earlier neighbour is looked up, which is found in
    /// the same manner. Each chain of ever earlier neighbours is walked: for few banks.
    pub fn wave_by_rule(&self, b: Bank) -> Wave {
        let earlier = self.neighbours(b).filter(|&q| self.earlier(q, b));
        let held: Vec<Wave> = earlier.map(|q| self.wave_by_rule(q)).collect();
        lowest_free(&held)
    }

    /// The largest degree, or 0 without banks.
    pub fn largest_degree(&self) -> usize {
        let degrees = (0..self.banks()).map(|b| self.degree(b));
        degrees.max().unwrap_or(0)
    }

    /// How many waves at most (Welsh and Powell): the largest over i, from 1, of the smaller of i and
    /// one plus the degree of the i-th bank in the rule order; 0 without banks.
    pub fn wave_bound(&self) -> usize {
        let order = self.order().into_iter();
        let smaller = order.zip(1..).map(|(b, i)| i.min(1 + self.degree(b)));
        smaller.max().unwrap_or(0)
    }
}

/// The smallest number from 0 that is not held.
fn lowest_free(held: &[Wave]) -> Wave {
    let free = |wave: &Wave| !held.contains(wave);
    (0..=held.len()).find(free).expect("one more than are held")
}

/// The number of waves: the highest wave plus 1, or 0 without banks.
pub fn number_of_waves(waves: &[Wave]) -> usize {
    waves.iter().max().map_or(0, |highest| highest + 1)
}
