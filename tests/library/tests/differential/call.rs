//! A call with its arguments, made on the library or on the model, and its answer.

use crate::guarded::{Guarded, Slices};
use independent::journal::Entry;
use independent::list::{rows, rows_before_n};
use independent::memory::Memory;
use independent::random::Random;
use independent::reach::Edit;
use independent::refusals::ACCEPTED;
use independent::shelf;
use std::fmt;
use wave_plan::lent::open_shelf;

/// A call with its arguments; a sheet's and a poster's is the length of its output, and a journal is the
/// slice that is lent, which may be longer than the journal. Crew steps has the cells that are lent for the
/// steps. Keeping and coming back have a name, checking a sheet its bytes.
#[derive(Clone)]
pub enum Call {
    Open(u16),
    Add(u16, u16),
    Strike(u16, u16),
    SetCap(u16),
    WaveOf(u16),
    ClashesOf(u16),
    WaveBound,
    WaveByRule(u16),
    CrewSteps(u16, Vec<u16>),
    LeastCrew(u16),
    ReadList(Vec<u8>),
    WriteSheet(usize),
    WritePoster(usize),
    StartJournal(Vec<u8>),
    Record(Entry, Vec<u8>, usize),
    Replay(Vec<u8>),
    OpenShelf(u16),
    Keep(Vec<u8>),
    ComeBack(Vec<u8>),
    CheckSheet(Vec<u8>),
}

/// The call for a message; a list or a journal is cut short.
impl fmt::Display for Call {
    fn fmt(&self, f: &mut fmt::Formatter) -> fmt::Result {
        match self {
            Call::Open(n) => write!(f, "open {n}"),
            Call::Add(a, b) => write!(f, "add {a} {b}"),
            Call::Strike(a, b) => write!(f, "strike {a} {b}"),
            Call::SetCap(cap) => write!(f, "set cap {cap}"),
            Call::WaveOf(b) => write!(f, "wave of {b}"),
            Call::ClashesOf(b) => write!(f, "clashes of {b}"),
            Call::WaveBound => write!(f, "wave bound"),
            Call::WaveByRule(b) => write!(f, "wave of {b} by the rule"),
            Call::CrewSteps(couriers, steps) => {
                write!(f, "steps of {couriers} couriers in {} cells", steps.len())
            }
            Call::LeastCrew(limit) => write!(f, "least crew within {limit}"),
            Call::ReadList(list) => {
                let front = &list[..list.len().min(80)];
                write!(f, "list of {} bytes, {}", list.len(), front.escape_ascii())
            }
            Call::WriteSheet(length) => write!(f, "sheet into {length} bytes"),
            Call::WritePoster(length) => write!(f, "poster into {length} bytes"),
            Call::StartJournal(slice) => write!(f, "journal into {} bytes", slice.len()),
            Call::Record(entry, slice, length) => {
                let front = &slice[..slice.len().min(40)];
                write!(f, "{entry:?} after {length} of {}, {front:?}", slice.len())
            }
            Call::Replay(journal) => {
                let front = &journal[..journal.len().min(40)];
                write!(f, "replay of {} bytes, {front:?}", journal.len())
            }
            Call::OpenShelf(n) => write!(f, "shelf for {n}"),
            Call::Keep(name) => write!(f, "keep {}", name.escape_ascii()),
            Call::ComeBack(name) => write!(f, "come back to {}", name.escape_ascii()),
            Call::CheckSheet(sheet) => {
                let front = &sheet[..sheet.len().min(80)];
                let length = sheet.len();
                write!(f, "check a sheet of {length}, {}", front.escape_ascii())
            }
        }
    }
}

/// The answer to a call: the number, the cells of the result slice, the bytes of the output or the
/// journal afterwards, and the cells of the steps.
pub struct Answer {
    pub number: u16,
    pub results: Vec<usize>,
    pub output: Vec<u8>,
    pub steps: Vec<u16>,
}

impl Call {
    /// The output lent to the call: a sheet's, of any content, or the slice of a journal.
    pub fn output(&self, random: &mut Random) -> Vec<u8> {
        match self {
            Call::WriteSheet(length) | Call::WritePoster(length) => {
                (0..*length).map(|_| random.byte()).collect()
            }
            Call::StartJournal(slice) | Call::Record(_, slice, _) => slice.clone(),
            _ => Vec::new(),
        }
    }

    /// The cells lent for the steps.
    pub fn steps(&self) -> Vec<u16> {
        match self {
            Call::CrewSteps(_, steps) => steps.clone(),
            _ => Vec::new(),
        }
    }

    /// Makes the call on the model.
    pub fn on_model(&self, model: &mut Memory, shelf: &mut [u16], mut output: Vec<u8>) -> Answer {
        let mut steps = self.steps();
        let (number, results) = match self {
            Call::Open(n) => (model.open(*n), vec![]),
            Call::Add(a, b) => {
                let answer = model.add(*a, *b);
                (answer.number, vec![answer.moved, answer.trail])
            }
            Call::Strike(a, b) => {
                let answer = model.strike(*a, *b);
                (answer.number, vec![answer.moved, answer.trail])
            }
            Call::SetCap(cap) => (model.set_cap(*cap), vec![]),
            Call::WaveOf(b) => {
                let answer = model.wave_of(*b);
                (answer.number, vec![usize::from(answer.wave)])
            }
            Call::ClashesOf(b) => {
                let number = model.wave_of(*b).number;
                let accepted = number == ACCEPTED;
                let start = if accepted { 23 * usize::from(*b) } else { 0 };
                (number, vec![start, model.clashes_of(*b).len()])
            }
            Call::WaveBound => {
                let answer = model.wave_bound();
                (answer.number, vec![answer.bound])
            }
            Call::WaveByRule(b) => {
                let answer = model.wave_by_rule(*b);
                (answer.number, vec![usize::from(answer.wave)])
            }
            Call::CrewSteps(couriers, _) => {
                let answer = model.crew_steps(*couriers, &mut steps);
                (answer.number, vec![answer.total])
            }
            Call::LeastCrew(limit) => {
                let answer = model.least_crew(*limit);
                (answer.number, vec![answer.couriers])
            }
            Call::ReadList(list) => {
                let answer = model.read_list(list);
                (answer.number, vec![answer.row])
            }
            Call::WriteSheet(_) => {
                let answer = model.write_sheet(&mut output);
                (answer.number, vec![answer.length])
            }
            Call::WritePoster(_) => {
                let answer = model.write_poster(&mut output);
                (answer.number, vec![answer.length])
            }
            Call::StartJournal(_) => {
                let answer = model.start_journal(&mut output);
                (answer.number, vec![answer.length])
            }
            Call::Record(entry, _, length) => {
                let answer = model.record(*entry, &mut output, *length);
                let results = vec![answer.moved, answer.trail, answer.length];
                (answer.number, results)
            }
            Call::Replay(journal) => {
                let answer = model.replay(journal);
                (answer.number, vec![answer.field, answer.left])
            }
            Call::OpenShelf(n) => (shelf::open_shelf(shelf, *n), vec![]),
            Call::Keep(name) => (model.keep(shelf, name), vec![]),
            Call::ComeBack(name) => {
                let answer = model.come_back(shelf, name);
                (answer.number, vec![answer.moved])
            }
            Call::CheckSheet(sheet) => {
                let answer = model.check_sheet(sheet);
                let results = vec![answer.line, answer.first, answer.second];
                (answer.number, results)
            }
        };
        Answer {
            number,
            results,
            output,
            steps,
        }
    }

    /// Makes the call on the library.
    pub fn on_library(&self, slices: &mut Slices, output: &mut [u8], steps: &mut [u16]) -> u16 {
        let (mut plan, mut answers, shelf) = slices.lent();
        let answers = &mut answers;
        match self {
            Call::Open(n) => plan.open(*n),
            Call::Add(a, b) => plan.add(*a, *b, answers),
            Call::Strike(a, b) => plan.strike(*a, *b, answers),
            Call::SetCap(cap) => plan.set_cap(*cap),
            Call::WaveOf(b) => plan.read().wave_of(*b, answers.result),
            Call::ClashesOf(b) => plan.read().clashes_of(*b, answers.result),
            Call::WaveBound => plan.read().wave_bound(answers.result),
            Call::WaveByRule(b) => plan.read().wave_by_rule(*b, answers.result),
            Call::CrewSteps(couriers, _) => {
                plan.read().crew_steps(*couriers, steps, answers.result)
            }
            Call::LeastCrew(limit) => plan.read().least_crew(*limit, answers.result),
            Call::ReadList(list) => plan.read_list(list, answers),
            Call::WriteSheet(_) => plan.read().write_sheet(output, answers.result),
            Call::WritePoster(_) => plan.read().write_poster(output, answers.result),
            Call::StartJournal(_) => plan.read().start_journal(output, answers.result),
            Call::Record(entry, _, length) => match entry.edit {
                Edit::Add => plan.add_recorded(entry.a, entry.b, output, *length, answers),
                Edit::Strike => plan.strike_recorded(entry.a, entry.b, output, *length, answers),
            },
            Call::Replay(journal) => plan.replay(journal, answers),
            Call::OpenShelf(n) => open_shelf(shelf, *n),
            Call::Keep(name) => plan.read().keep(shelf, padded(name).content()),
            Call::ComeBack(name) => plan.come_back(shelf, padded(name).content(), answers),
            Call::CheckSheet(sheet) => plan
                .read()
                .check_sheet(ended(sheet).content(), answers.result),
        }
    }
}

impl Answer {
    /// Whether the call is to leave everything as it was. A list refused after its N row, or a journal
    /// refused at a later field, leaves the plan of the rows or fields before.
    pub fn changes_nothing(&self, call: &Call) -> bool {
        match call {
            Call::ReadList(list) => {
                let first = 1 + rows_before_n(&rows(list));
                self.number != ACCEPTED && self.results[0] <= first
            }
            Call::Replay(_) => self.number != ACCEPTED && self.results[0] < 2,
            _ => self.number != ACCEPTED,
        }
    }
}

/// The sheet between line feeds that are not lent: read beyond its end, one that ends too early would be whole.
fn ended(sheet: &[u8]) -> Guarded<u8> {
    Guarded::new(sheet, b'\n')
}

/// The name between spaces that are not lent: read beyond its end, a short name would be known.
fn padded(name: &[u8]) -> Guarded<u8> {
    Guarded::new(name, b' ')
}
