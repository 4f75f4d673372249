//! A desk that is killed at random moments. The plan afterwards is that of the edits which it answered, or of those
//! and the one in flight.

use crate::process::{printed, run, start};
use crate::support::{after, clash_lines, row, sheet, strikes, undoing, Folder, Made};
use independent::graph::Graph;
use independent::journal::started;
use independent::random::Random;
use independent::reach::Edit;
use std::fs;
use std::io::{BufRead, BufReader, Read, Write};
use std::process::ChildStdout;
use std::thread;
use std::time::Duration;

/// How often a desk is killed in a run of edits, and while it starts a journal.
const KILLS: usize = 200;
const STARTS: usize = 40;

/// The banks of the plan, and the lines of a run.
const BANKS: usize = 12;
const LINES: usize = 24;

/// Lines for a desk, and the edits that they make in turn, each with the graph after it.
struct Run {
    lines: String,
    edits: Vec<(Made, Graph)>,
}

/// A random run from a graph on: edits, some of which are refused, `D` and `undo`.
fn drawn(random: &mut Random, graph: &Graph) -> Run {
    let mut run = Run {
        lines: String::new(),
        edits: Vec::new(),
    };
    let (mut graph, mut made) = (graph.clone(), Vec::new());
    for _ in 0..LINES {
        let (a, b) = (random.below(BANKS), random.below(BANKS));
        let (line, edits) = match random.below(12) {
            0 => (format!("D {b}"), strikes(&graph, b)),
            1 => (
                "undo".to_string(),
                made.pop().map(undoing).into_iter().collect(),
            ),
            draw => {
                let edit = if draw < 5 { Edit::Strike } else { Edit::Add };
                (row((edit, a, b)), vec![(edit, a, b)])
            }
        };
        let undo = line == "undo";
        run.lines += &format!("{line}\n");
        for edit in edits {
            if let Some(new) = after(&graph, edit) {
                graph = new;
                run.edits.push((edit, graph.clone()));
                if !undo {
                    made.push(edit);
                }
            }
        }
    }
    run
}

/// The rows of the edits that a desk answered, as it printed them.
fn answered(text: &str) -> Vec<&str> {
    let whole = text.rfind('\n').map_or("", |end| &text[..end]);
    let heads = whole.lines().filter(|line| line.contains(" taken up, "));
    heads.filter_map(|line| line.split(':').next()).collect()
}

/// Reads lines until so many edits were answered.
fn read_answers(out: &mut BufReader<ChildStdout>, count: usize) -> String {
    let mut text = String::new();
    while answered(&text).len() < count {
        if out.read_line(&mut text).expect("a text") == 0 {
            break;
        }
    }
    text
}

/// Feeds a run to a desk on the file and kills it: at once or some time after so many answers. The answer is what it
/// printed.
fn killed(random: &mut Random, file: &str, run: &Run) -> String {
    let mut child = start(&[file]);
    let mut pipe = child.stdin.take().expect("a pipe");
    pipe.write_all(run.lines.as_bytes())
        .expect("a pipe has space for it");
    // So that a desk which answers no edit at all ends, and with it the reading below.
    drop(pipe);
    let mut out = BufReader::new(child.stdout.take().expect("a pipe"));
    let awaited = random.below(run.edits.len().min(12));
    let mut text = read_answers(&mut out, awaited);
    let longest = if awaited == 0 { 3000 } else { 400 };
    thread::sleep(Duration::from_micros(random.below(longest) as u64));
    child.kill().expect("it is killed");
    child.wait().expect("it has ended");
    out.read_to_string(&mut text).expect("a text");
    text
}

/// The lines that ask for the sheet and for the clashes of each of n banks.
fn ask_all(n: usize) -> String {
    let clashes: String = (0..n).map(|b| format!("clashes {b}\n")).collect();
    format!("sheet\n{clashes}")
}

/// What a new desk on the file says of the plan.
fn found(file: &str) -> String {
    let said = printed(&run(&[file], &ask_all(BANKS)));
    let at = said.find("WAVES").unwrap_or_else(|| panic!("{said}"));
    said[at..].to_string()
}

/// What a desk says of the plan of a graph.
fn told(graph: &Graph) -> String {
    sheet(graph) + &clash_lines(graph)
}

#[test]
fn killed_in_a_run_of_edits() {
    let folder = Folder::new();
    let file = folder.path("day.journal");
    let mut random = Random::new(200);
    let mut graph = Graph::empty(BANKS);
    run(&[], &format!("open {BANKS}\njournal {file}\n"));
    for kill in 0..KILLS {
        let run = drawn(&mut random, &graph);
        let text = killed(&mut random, &file, &run);
        let answered = answered(&text);
        let made = run.edits.iter().map(|(made, _)| row(*made));
        let made: Vec<String> = made.take(answered.len()).collect();
        assert_eq!(answered, made, "kill {kill}");
        let last = answered.len().checked_sub(1);
        let acknowledged = last.map_or(&graph, |last| &run.edits[last].1);
        let in_flight = run.edits.get(answered.len()).map(|(_, graph)| graph);
        let found = found(&file);
        graph = if found == told(acknowledged) {
            acknowledged.clone()
        } else {
            let in_flight = in_flight.unwrap_or_else(|| panic!("kill {kill}: {found}"));
            assert_eq!(found, told(in_flight), "kill {kill}");
            in_flight.clone()
        };
    }
    assert_eq!(folder.names(), ["day.journal"]);
}

/// While a journal is started, its file is missing or empty, or has the whole of it.
#[test]
fn killed_while_it_starts_a_journal() {
    let folder = Folder::new();
    let pairs = (0..60).flat_map(|a| (1..6).map(move |d| (a, (a + d) % 60)));
    let rows: String = pairs.clone().map(|(a, b)| format!("+ {a} {b}\n")).collect();
    let graph = Graph::of(60, pairs);
    let list = folder.file("day.list", format!("N 60\n{rows}").as_bytes());
    let file = folder.path("day.journal");
    let mut random = Random::new(40);
    for _ in 0..STARTS {
        let mut child = start(&[]);
        let mut pipe = child.stdin.take().expect("a pipe");
        writeln!(pipe, "load {list}\njournal {file}").expect("a pipe has space for it");
        let mut out = BufReader::new(child.stdout.take().expect("a pipe"));
        let mut text = String::new();
        out.read_line(&mut text).expect("a text");
        thread::sleep(Duration::from_micros(random.below(1500) as u64));
        child.kill().expect("it is killed");
        child.wait().expect("it has ended");
        out.read_to_string(&mut text).expect("a text");
        let bytes = fs::read(&file).unwrap_or_default();
        let on = text.contains("each edit is recorded from here on\n");
        assert!(
            bytes == started(&graph) || bytes.is_empty() && !on,
            "{text}"
        );
        if fs::remove_file(&file).is_err() {
            assert!(!on, "{text}");
        }
    }
}
