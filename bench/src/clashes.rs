//! Clashes as rows of neighbours, and random edits of them.

use independent::random::Random;

/// An edit of two banks.
#[derive(Clone, Copy, Debug)]
pub enum Edit {
    Add(u16, u16),
    Strike(u16, u16),
}

impl Edit {
    pub fn inverse(self) -> Edit {
        match self {
            Edit::Add(a, b) => Edit::Strike(a, b),
            Edit::Strike(a, b) => Edit::Add(a, b),
        }
    }
}

/// Clashes as rows and degrees like those of plan memory.
pub struct Clashes {
    pub neighbours: Vec<u16>,
    pub degrees: Vec<u16>,
}

impl Clashes {
    /// None, on so many banks.
    pub fn none(banks: usize) -> Clashes {
        Clashes {
            neighbours: vec![65_535; 23 * banks],
            degrees: vec![0; banks],
        }
    }

    /// So many random clashes.
    pub fn drawn(random: &mut Random, banks: usize, clashes: usize) -> Clashes {
        let mut drawn = Clashes::none(banks);
        for _ in 0..clashes {
            let edit = drawn.random_add(random);
            drawn.make(edit);
        }
        drawn
    }

    pub fn banks(&self) -> usize {
        self.degrees.len()
    }

    /// How many clashes there are.
    pub fn count(&self) -> usize {
        let ends: usize = self.degrees.iter().map(|&d| usize::from(d)).sum();
        ends / 2
    }

    /// A random add to which no refusal is due.
    pub fn random_add(&self, random: &mut Random) -> Edit {
        let room = |b: u16| self.degrees[usize::from(b)] < 23;
        loop {
            let a = random.below(self.banks()) as u16;
            let b = random.below(self.banks()) as u16;
            if a != b && room(a) && room(b) && !self.row(a).contains(&b) {
                return Edit::Add(a, b);
            }
        }
    }

    /// A random strike to which no refusal is due; there is a clash.
    pub fn random_strike(&self, random: &mut Random) -> Edit {
        loop {
            let b = random.below(self.banks()) as u16;
            if let Some(&q) = self.row(b).get(random.below(23)) {
                return Edit::Strike(b, q);
            }
        }
    }

    /// All clashes, smaller bank first.
    pub fn pairs(&self) -> impl Iterator<Item = (u16, u16)> + '_ {
        let above = move |b: u16| self.row(b).iter().filter(move |&&q| b < q);
        (0..self.banks() as u16).flat_map(move |b| above(b).map(move |&q| (b, q)))
    }

    /// Makes an edit to which no refusal is due.
    pub fn make(&mut self, edit: Edit) {
        match edit {
            Edit::Add(a, b) => {
                self.insert(a, b);
                self.insert(b, a);
            }
            Edit::Strike(a, b) => {
                self.remove(a, b);
                self.remove(b, a);
            }
        }
    }

    /// The strikes of all clashes of b, lowest neighbour first, made.
    pub fn strike_all(&mut self, b: u16) -> Vec<Edit> {
        let strike = |&q: &u16| Edit::Strike(b, q);
        let strikes: Vec<Edit> = self.row(b).iter().map(strike).collect();
        strikes.iter().for_each(|&edit| self.make(edit));
        strikes
    }

    /// The neighbours of b, ascending.
    pub fn row(&self, b: u16) -> &[u16] {
        let b = usize::from(b);
        &self.neighbours[23 * b..][..usize::from(self.degrees[b])]
    }

    fn insert(&mut self, b: u16, q: u16) {
        let place = self.row(b).iter().take_while(|&&p| p < q).count();
        let row = &mut self.neighbours[23 * usize::from(b)..][..23];
        row[place..].rotate_right(1);
        row[place] = q;
        self.degrees[usize::from(b)] += 1;
    }

    fn remove(&mut self, b: u16, q: u16) {
        let place = self.row(b).iter().take_while(|&&p| p < q).count();
        let row = &mut self.neighbours[23 * usize::from(b)..][..23];
        row[place] = 65_535;
        row[place..].rotate_left(1);
        self.degrees[usize::from(b)] -= 1;
    }
}
