//! The library's memory beside the model's. A call is made on both, then everything is compared.

use crate::call::{Answer, Call};
use crate::guarded::{assert_same, Guarded, Slices};
use independent::memory::Memory;
use independent::random::Random;

pub struct Pair {
    pub model: Memory,
    /// The model's shelf.
    pub shelf: Vec<u16>,
    slices: Slices,
    random: Random,
}

impl Pair {
    /// The model's memory without a shelf, and a copy for the library.
    pub fn new(model: Memory, seed: u64) -> Pair {
        Pair::with_shelf(model, Vec::new(), seed)
    }

    /// The model's memory and shelf, and a copy for the library. Tally and result slices are often
    /// longer than needed.
    pub fn with_shelf(model: Memory, shelf: Vec<u16>, seed: u64) -> Pair {
        let mut random = Random::new(seed);
        let spare_tally: Vec<u16> = (0..random.below(3)).map(|_| random.draw() as u16).collect();
        let tally = [&tally_cells(&model)[..], &spare_tally].concat();
        let result = vec![0; random.between(3, 6)];
        Pair {
            slices: Slices::new(&model, &shelf, &tally, &result),
            model,
            shelf,
            random,
        }
    }

    /// Makes the call on both. The number, each cell and each guard cell must agree.
    pub fn call(&mut self, call: &Call) -> Answer {
        self.scatter_result();
        let before = self.slices.clone();
        let lent = call.output(&mut self.random);
        let mut output = Guarded::new(&lent, 0xC5);
        let mut steps = Guarded::new(&call.steps(), 0x5AC3);
        let number = call.on_library(&mut self.slices, output.lend(), steps.lend());
        let wanted = call.on_model(&mut self.model, &mut self.shelf, lent.clone());
        let about = |what: &str| {
            let n = self.model.tally.banks;
            format!("{call}, at {n} banks: {what}")
        };
        assert_eq!(number, wanted.number, "{}", about("number"));
        assert_same(output.content(), &wanted.output, &|| about("output"));
        assert!(output.guards_stand(), "{}", about("guards of the output"));
        assert_same(steps.content(), &wanted.steps, &|| about("steps"));
        assert!(steps.guards_stand(), "{}", about("guards of the steps"));
        self.compare(&wanted.results, &before, &about);
        if wanted.changes_nothing(call) {
            self.nothing_changed(&before, &about);
            assert_same(output.content(), &lent, &|| about("output"));
            assert_same(steps.content(), &call.steps(), &|| about("steps"));
        }
        wanted
    }

    /// Every cell of every slice against the model, and the cells that no call changes against
    /// what they were.
    fn compare(&self, results: &[usize], before: &Slices, about: &dyn Fn(&str) -> String) {
        let results: Vec<u16> = results.iter().map(|&result| result as u16).collect();
        let old_result = before.result.content();
        let old_tally = before.tally.content();
        let wanted_result = [&results, &old_result[results.len()..]].concat();
        let wanted_tally = [&tally_cells(&self.model)[..], &old_tally[4..]].concat();
        let wanted: [&[u16]; 10] = [
            &self.model.neighbours,
            &self.model.degrees,
            &self.model.waves,
            &self.model.counts,
            &self.model.ranks,
            &self.model.trail,
            &self.model.moved,
            &self.shelf,
            &wanted_tally,
            &wanted_result,
        ];
        for ((name, slice), wanted) in self.slices.named().into_iter().zip(wanted) {
            assert_same(slice.content(), wanted, &|| about(name));
            assert!(slice.guards_stand(), "{}", about(name));
        }
    }

    /// Every cell but the results is as it was.
    fn nothing_changed(&self, before: &Slices, about: &dyn Fn(&str) -> String) {
        let slices = self.slices.named().into_iter().zip(before.named());
        for ((name, slice), (_, old)) in slices.filter(|((name, _), _)| *name != "result") {
            assert_same(slice.content(), old.content(), &|| about(name));
        }
    }

    /// New content for the result slice, so that no result is left from a call before.
    fn scatter_result(&mut self) {
        for cell in self.slices.result.lend() {
            *cell = self.random.draw() as u16;
        }
    }
}

/// The model's tally as cells.
pub fn tally_cells(model: &Memory) -> [u16; 4] {
    let tally = model.tally;
    [tally.banks, tally.clashes, tally.waves, tally.cap]
}
