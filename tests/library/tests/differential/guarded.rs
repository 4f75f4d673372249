//! Slices between guard cells, so that a write outside the lent part shows.

use independent::memory::Memory;
use wave_plan::lent::{Answers, Lent};

/// The guard cells on each side.
const GUARDS: usize = 32;

/// A slice to lend, with guard cells before and after it.
#[derive(Clone)]
pub struct Guarded<T> {
    cells: Vec<T>,
    guard: T,
}

impl<T: Copy + PartialEq> Guarded<T> {
    pub fn new(content: &[T], guard: T) -> Guarded<T> {
        let guards = vec![guard; GUARDS];
        Guarded {
            cells: [&guards, content, &guards].concat(),
            guard,
        }
    }

    /// The part that is lent.
    pub fn lend(&mut self) -> &mut [T] {
        let end = self.cells.len() - GUARDS;
        &mut self.cells[GUARDS..end]
    }

    pub fn content(&self) -> &[T] {
        &self.cells[GUARDS..self.cells.len() - GUARDS]
    }

    /// Whether the guard cells are as they were.
    pub fn guards_stand(&self) -> bool {
        let (before, rest) = self.cells.split_at(GUARDS);
        let after = &rest[rest.len() - GUARDS..];
        before.iter().chain(after).all(|&cell| cell == self.guard)
    }
}

/// The ten slices lent to the library.
#[derive(Clone)]
pub struct Slices {
    pub neighbours: Guarded<u16>,
    pub degrees: Guarded<u16>,
    pub waves: Guarded<u16>,
    pub counts: Guarded<u16>,
    pub ranks: Guarded<u16>,
    pub trail: Guarded<u16>,
    pub moved: Guarded<u16>,
    pub shelf: Guarded<u16>,
    pub tally: Guarded<u16>,
    pub result: Guarded<u16>,
}

impl Slices {
    /// The model's memory as slices, with the given cells as shelf, tally and result slices.
    pub fn new(memory: &Memory, shelf: &[u16], tally: &[u16], result: &[u16]) -> Slices {
        let guarded = |content: &[u16]| Guarded::new(content, 0x5AC3);
        Slices {
            neighbours: guarded(&memory.neighbours),
            degrees: guarded(&memory.degrees),
            waves: guarded(&memory.waves),
            counts: guarded(&memory.counts),
            ranks: guarded(&memory.ranks),
            trail: guarded(&memory.trail),
            moved: guarded(&memory.moved),
            shelf: guarded(shelf),
            tally: guarded(tally),
            result: guarded(result),
        }
    }

    /// The slices of a plan, those for what a call answers, and the shelf.
    pub fn lent(&mut self) -> (Lent<'_>, Answers<'_>, &mut [u16]) {
        let plan = Lent {
            neighbours: self.neighbours.lend(),
            degrees: self.degrees.lend(),
            waves: self.waves.lend(),
            counts: self.counts.lend(),
            ranks: self.ranks.lend(),
            tally: self.tally.lend(),
        };
        let answers = Answers {
            trail: self.trail.lend(),
            moved: self.moved.lend(),
            result: self.result.lend(),
        };
        (plan, answers, self.shelf.lend())
    }

    /// Each slice with its name.
    pub fn named(&self) -> [(&'static str, &Guarded<u16>); 10] {
        [
            ("neighbours", &self.neighbours),
            ("degrees", &self.degrees),
            ("waves", &self.waves),
            ("counts", &self.counts),
            ("ranks", &self.ranks),
            ("trail", &self.trail),
            ("moved", &self.moved),
            ("shelf", &self.shelf),
            ("tally", &self.tally),
            ("result", &self.result),
        ]
    }
}

/// Two slices are equal, cell by cell; else the first difference is told.
pub fn assert_same<T: Copy + PartialEq + std::fmt::Debug>(
    found: &[T],
    wanted: &[T],
    what: &dyn Fn() -> String,
) {
    if found == wanted {
        return;
    }
    assert_eq!(found.len(), wanted.len(), "{}: length", what());
    let place = (0..found.len()).find(|&i| found[i] != wanted[i]);
    let place = place.expect("the slices differ");
    panic!(
        "{}: cell {place} is {:?}, wanted {:?}",
        what(),
        found[place],
        wanted[place]
    );
}
