//! Tally slices of fewer than four cells and result slices of fewer than the call needs: 2 before
//! any other number, and nothing changes. And ranks that are a cell short.

use crate::call::Call;
use crate::guarded::{assert_same, Guarded, Slices};
use crate::pair::{tally_cells, Pair};
use crate::plans::{graph, memory_of, shelf_of, slices, RANKS};
use independent::graph::Graph;
use independent::journal::{journal_of, Entry, Field, Form};
use independent::memory::Memory;
use independent::random::Random;
use independent::reach::Edit;

#[test]
fn short_tally_or_result() {
    let mut random = Random::new(95);
    let graph = Graph::of(4, [(0, 1), (1, 2)]);
    let whole = memory_of(&mut random, &graph);
    let shelf = shelf_of(&mut random, 4, [None, Some(&graph), None]);
    let mut too_many_banks = whole.clone();
    too_many_banks.tally.banks = 2000;
    let mut no_plan = whole.clone();
    no_plan.waves[0] += 1;
    let mut no_room = whole.clone();
    no_room.degrees.clear();
    let entry = |edit| Entry { edit, a: 0, b: 2 };
    let (add, strike) = (entry(Edit::Add), entry(Edit::Strike));
    let mut journal = journal_of::<Field>(Form::Numbered, 4, &[]);
    journal.resize(20, b'#');
    let calls = [
        (Call::Open(4), 0),
        (Call::Open(2000), 0),
        (Call::Add(0, 2), 2),
        (Call::Add(9, 9), 2),
        (Call::Strike(0, 1), 2),
        (Call::Strike(0, 3), 2),
        (Call::SetCap(3), 0),
        (Call::SetCap(1), 0),
        (Call::SetCap(25), 0),
        (Call::WaveOf(1), 1),
        (Call::WaveOf(9), 1),
        (Call::ClashesOf(1), 2),
        (Call::ClashesOf(9), 2),
        (Call::WaveBound, 1),
        (Call::WaveByRule(1), 1),
        (Call::WaveByRule(9), 1),
        (Call::CrewSteps(2, vec![7; 5]), 1),
        (Call::CrewSteps(65, vec![7; 4]), 1),
        (Call::CrewSteps(1, vec![7; 3]), 1),
        (Call::LeastCrew(4), 1),
        (Call::LeastCrew(1), 1),
        (Call::LeastCrew(1025), 1),
        (Call::ReadList(b"N 3\n+ 0 1".to_vec()), 1),
        (Call::ReadList(b"N 3\n+ 0".to_vec()), 1),
        (Call::ReadList(b"".to_vec()), 1),
        (Call::ReadList(vec![b' '; 60_001]), 1),
        (Call::WriteSheet(100), 1),
        (Call::WriteSheet(0), 1),
        (Call::WritePoster(2050), 1),
        (Call::WritePoster(0), 1),
        (Call::StartJournal(vec![b'#'; 30]), 1),
        (Call::StartJournal(vec![]), 1),
        (Call::Record(add, journal.clone(), 5), 3),
        (Call::Record(add, journal.clone(), 4), 3),
        (Call::Record(strike, journal.clone(), 70_000), 3),
        (Call::Replay(journal.clone()), 2),
        (Call::Replay(vec![]), 2),
        (Call::Keep(b"CLOSE   ".to_vec()), 0),
        (Call::Keep(b"CLOSE".to_vec()), 0),
        (Call::ComeBack(b"NOON    ".to_vec()), 1),
        (Call::ComeBack(b"CLOSE   ".to_vec()), 1),
        (Call::ComeBack(b"noon    ".to_vec()), 1),
        (Call::CheckSheet(b"".to_vec()), 3),
        (
            Call::CheckSheet(b"WAVES 2\nA 1 3\nB 0 2\nTOTAL 4 2\n".to_vec()),
            3,
        ),
    ];
    for memory in [&whole, &too_many_banks, &no_plan, &no_room] {
        for (call, results) in &calls {
            for tally in 0..=5 {
                for result in 0..=3 {
                    if tally < 4 || result < *results {
                        refused(memory, &shelf, call, tally, result);
                    }
                }
            }
        }
    }
}

/// Each call that is lent the ranks, in memory that holds a plan up to the last rank: 2 if this one is
/// not there, else what the call gives.
#[test]
fn ranks_a_cell_short() {
    let mut random = Random::new(97);
    for n in [1, 2, 5, 30, 1024] {
        let graph = graph(&mut random, n);
        let whole = memory_of(&mut random, &graph);
        let shelf = shelf_of(&mut random, n, [None, Some(&graph), None]);
        let journal = journal_of::<Field>(Form::Plain, n as u16, &[]);
        let slice = [&journal[..], &[b'#'; 7]].concat();
        let entry = |edit| Entry { edit, a: 0, b: 0 };
        for (call, number) in [
            (Call::Open(n as u16), 0),
            (Call::Add(0, 0), 5),
            (Call::Strike(0, 0), 5),
            (Call::SetCap(24), 0),
            (Call::WaveOf(0), 0),
            (Call::ClashesOf(0), 0),
            (Call::WaveBound, 0),
            (Call::WaveByRule(0), if n > 16 { 22 } else { 0 }),
            (Call::CrewSteps(3, vec![7; n]), 0),
            (Call::CrewSteps(0, vec![7; n]), 24),
            (Call::LeastCrew(1024), 0),
            (Call::LeastCrew(0), 25),
            (Call::ReadList(format!("N {n}").into_bytes()), 0),
            (Call::WriteSheet(5000), 0),
            (Call::WritePoster(8200), 0),
            (Call::StartJournal(vec![b'#'; 100_000]), 0),
            (Call::Record(entry(Edit::Add), slice.clone(), 5), 5),
            (Call::Record(entry(Edit::Strike), slice, 5), 5),
            (Call::Replay(journal), 0),
            (Call::Keep(b"CLOSE   ".to_vec()), 0),
            (Call::ComeBack(b"NOON    ".to_vec()), 0),
            (Call::CheckSheet(b"".to_vec()), 26),
        ] {
            for short in [true, false] {
                let mut memory = whole.clone();
                slices(&mut memory)[RANKS].truncate(n - usize::from(short));
                let mut pair = Pair::with_shelf(memory, shelf.clone(), random.draw());
                let got = pair.call(&call).number;
                let full = matches!(call, Call::StartJournal(_)) && got == 15;
                let wanted = if short { 2 } else { number };
                assert!(got == wanted || (full && !short), "{call}: {got}");
            }
        }
    }
}

/// The call with tally and result slices of these lengths gets 2, and nothing changes.
fn refused(memory: &Memory, shelf: &[u16], call: &Call, tally: usize, result: usize) {
    let mut cells = tally_cells(memory).to_vec();
    cells.resize(tally, 7);
    let mut slices = Slices::new(memory, shelf, &cells, &vec![7777; result]);
    let before = slices.clone();
    let lent = call.output(&mut Random::new(96));
    let mut output = Guarded::new(&lent, b'!');
    let about = || format!("{call}, tally of {tally} cells, result of {result}");
    let mut steps = Guarded::new(&call.steps(), 0x5AC3);
    let number = call.on_library(&mut slices, output.lend(), steps.lend());
    assert_eq!(number, 2, "{}", about());
    for ((name, slice), (_, old)) in slices.named().into_iter().zip(before.named()) {
        assert_same(slice.content(), old.content(), &|| {
            format!("{}: {name}", about())
        });
        assert!(slice.guards_stand(), "{}: {name}", about());
    }
    let untouched = output.content() == lent;
    assert!(untouched && output.guards_stand(), "{}: output", about());
    let untouched = steps.content() == call.steps();
    assert!(untouched && steps.guards_stand(), "{}: steps", about());
}
