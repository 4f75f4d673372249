//! Where time goes, for goals that are not met: the parts of a run of *sheet*, and the part of a core
//! edit that does not hang on its trail. And what makes core edits ready.

use crate::clashes::Edit;
use crate::clock::timed;
use crate::edits::{make, question_time};
use crate::effort::Effort;
use crate::library::{Memory, CORE};
use crate::lists::{list_of_60_000_bytes, sheet_by_scratch, Depot};
use crate::program::list_with_random_ranks;
use crate::BANKS;

/// What was measured, in seconds, by repeat.
pub struct Parts {
    pub ranks_0: OnList,
    pub ranked: OnList,
    /// A core edit of two banks that clash with no other, in a plan of 2 banks and of 1,024.
    pub edit_of_2: Vec<f64>,
    pub edit_of_most: Vec<f64>,
    /// Making the queue ready for core edits, with all ranks 0 and with random ranks.
    pub ready: Vec<f64>,
    pub ready_ranked: Vec<f64>,
}

/// The calls that *sheet* makes for a list of 60,000 bytes.
#[derive(Default)]
pub struct OnList {
    /// Reading the list, edits included; and the same edits alone.
    pub reading: Vec<f64>,
    pub edits: Vec<f64>,
    /// Writing the sheet, question 5 included; and question 5 alone.
    pub writing: Vec<f64>,
    pub question: Vec<f64>,
}

pub fn measure(effort: &Effort) -> Parts {
    Parts {
        ranks_0: on_list(effort, &list_of_60_000_bytes(&[])),
        ranked: on_list(effort, &list_with_random_ranks()),
        edit_of_2: apart(effort, 2),
        edit_of_most: apart(effort, BANKS),
        ready: ready(effort, &[0; BANKS]),
        ready_ranked: ready(effort, &Depot::of(&list_with_random_ranks()).ranks),
    }
}

fn on_list(effort: &Effort, list: &[u8]) -> OnList {
    let depot = Depot::of(list);
    let sheet = sheet_by_scratch(&depot.clashes, &depot.ranks);
    let edits: Vec<Edit> = depot.edits.concat();
    let mut read = Memory::opened(&[0; BANKS]);
    let mut out = [0; 5000];
    let mut parts = OnList::default();
    for _ in 0..effort.repeats {
        parts.reading.push(timed(1, || read.read_list(list)));
        let mut made = Memory::opened(&depot.ranks);
        let all = || edits.iter().for_each(|&edit| make(&mut made, edit, CORE));
        parts.edits.push(timed(1, all));
        assert!(made.same_plan(&read), "the edits lead to the list's plan");
        let mut length = 0;
        let write = || length = read.write_sheet(&mut out);
        parts.writing.push(timed(1, write));
        assert!(out[..length] == sheet, "the list's sheet");
        parts.question.push(question_time(&mut read, effort.tests));
    }
    parts
}

/// The times of adding and striking the one clash of a plan.
fn apart(effort: &Effort, banks: usize) -> Vec<f64> {
    let mut memory = Memory::opened(&vec![0; banks]);
    let mut times = Vec::new();
    for _ in 0..effort.repeats {
        times.push(timed(2 * effort.tests, || {
            for _ in 0..effort.tests {
                make(&mut memory, Edit::Add(0, 1), CORE);
                make(&mut memory, Edit::Strike(0, 1), CORE);
            }
        }));
    }
    times
}

/// The times of making the queue ready for plans with these ranks.
fn ready(effort: &Effort, ranks: &[u16]) -> Vec<f64> {
    let mut memory = Memory::opened(ranks);
    let mut times = Vec::new();
    for _ in 0..effort.repeats {
        times.push(timed(effort.tests, || {
            for _ in 0..effort.tests {
                memory.ready_queue();
            }
        }));
    }
    times
}
