//! The program *sheet* on lists of 60,000 bytes, with all ranks 0 and with random ranks, against
//! programs that colour from scratch, after every row or once at the end: in Rust, which is this
//! program again with a mode as its argument, in C++ with Boost, and in Python with networkx. And
//! each on a list of no banks, which takes as long as starting and ending it does.

use crate::clashes::{Clashes, Edit};
use crate::effort::Effort;
use crate::lists::{list_of_60_000_bytes, sheet_by_scratch, sheet_of, Depot};
use crate::scratch::Colouring;
use crate::{random_ranks_of, repository, BANKS};
use independent::list::{later_row, n_row, rows, Row};
use independent::random::Random;
use independent::sheet::program_output;
use std::io::{self, Read, Write};
use std::path::PathBuf;
use std::process::{Command, Stdio};
use std::time::Instant;
use std::{env, fs, thread};

/// The modes of this program: waves from scratch after every row; once, after the last row; and the
/// model, which works out waves, trail and moved from scratch after every row.
const EVERY_ROW: &str = "every-row";
const AT_END: &str = "at-end";
const MODEL: &str = "model";

/// What is run.
#[derive(Clone, Copy)]
pub enum Program {
    Sheet,
    EveryRow,
    AtEnd,
    BoostEveryRow,
    BoostKept,
    BoostOnce,
    BoostByHand,
    Networkx,
    Model,
}

use Program::*;

impl Program {
    /// All, in the order of their declaration.
    pub const ALL: [Program; 9] = [
        Sheet,
        EveryRow,
        AtEnd,
        BoostEveryRow,
        BoostKept,
        BoostOnce,
        BoostByHand,
        Networkx,
        Model,
    ];

    pub fn name(self) -> &'static str {
        match self {
            Sheet => "`sheet`",
            EveryRow => "Rust, after every row",
            AtEnd => "Rust, once",
            BoostEveryRow => "Boost, after every row",
            BoostKept => "Boost, after every row, sorting from the order before",
            BoostOnce => "Boost, once",
            BoostByHand => "Boost, once, rows read by hand",
            Networkx => "networkx, once",
            Model => "the model: waves, trail and moved after every row",
        }
    }

    fn command(self) -> Command {
        match self {
            Sheet => Command::new(sheet_program()),
            EveryRow => with(this_program(), EVERY_ROW),
            AtEnd => with(this_program(), AT_END),
            BoostEveryRow => with(boost(), "every-row"),
            BoostKept => with(boost(), "every-row-kept"),
            BoostOnce => with(boost(), "once"),
            BoostByHand => with(boost(), "once-by-hand"),
            Networkx => networkx(),
            Model => with(this_program(), MODEL),
        }
    }

    fn runs(self, effort: &Effort) -> usize {
        match self {
            Model => effort.model_runs,
            _ => effort.runs,
        }
    }

    /// Whether it is run on the list with random ranks too.
    fn takes_ranks(self) -> bool {
        !matches!(self, Networkx | Model)
    }
}

/// The times of one program: of a whole run, in seconds, by repeat.
#[derive(Default)]
pub struct Runs {
    /// On the list without K rows.
    pub ranks_0: Vec<f64>,
    /// On the list with random ranks, if it is run on that.
    pub ranked: Vec<f64>,
    /// On a list of no banks.
    pub nothing: Vec<f64>,
}

/// What was measured.
pub struct Programs {
    pub rows: usize,
    /// The edit rows of the lists with K rows.
    pub ranked_rows: usize,
    runs: Vec<Runs>,
    /// *sheet* on the list whose K rows have all ranks 0.
    pub ranks_0_in_rows: Vec<f64>,
    /// What the peers say of their versions.
    pub versions: String,
}

impl Programs {
    pub fn of(&self, program: Program) -> &Runs {
        &self.runs[program as usize]
    }
}

/// A list, and the sheet that all programs print for it.
struct Task {
    list: Vec<u8>,
    sheet: Vec<u8>,
}

impl Task {
    fn new(list: Vec<u8>) -> Task {
        let depot = Depot::of(&list);
        let sheet = sheet_by_scratch(&depot.clashes, &depot.ranks);
        Task { list, sheet }
    }

    fn run(&self, times: &mut Vec<f64>, program: Program) {
        let (output, time) = output_of(&mut program.command(), &self.list);
        let name = program.name();
        assert!(output == self.sheet, "{name} prints another sheet");
        times.push(time);
    }

    /// How many rows change clashes.
    fn edit_rows(&self) -> usize {
        Depot::of(&self.list).edits.len()
    }
}

pub fn measure(effort: &Effort) -> Programs {
    let list = Task::new(list_of_60_000_bytes(&[]));
    let ranks_0_in_rows = Task::new(list_of_60_000_bytes(&[0; BANKS]));
    let ranked = Task::new(list_with_random_ranks());
    let nothing = Task::new(b"N 0".to_vec());
    let mut programs = Programs {
        rows: rows(&list.list).len(),
        ranked_rows: ranked.edit_rows(),
        runs: Program::ALL.map(|_| Runs::default()).into(),
        ranks_0_in_rows: Vec::new(),
        versions: versions(),
    };
    for repeat in 0..effort.runs {
        for program in Program::ALL {
            if repeat < program.runs(effort) {
                let runs = &mut programs.runs[program as usize];
                list.run(&mut runs.ranks_0, program);
                if program.takes_ranks() {
                    ranked.run(&mut runs.ranked, program);
                }
                nothing.run(&mut runs.nothing, program);
            }
        }
        ranks_0_in_rows.run(&mut programs.ranks_0_in_rows, Sheet);
    }
    programs
}

/// The list of 60,000 bytes with random ranks.
pub fn list_with_random_ranks() -> Vec<u8> {
    list_of_60_000_bytes(&random_ranks_of(&mut Random::new(9999), BANKS))
}

/// The program *sheet*: the path in SHEET_PROGRAM, or the one that the build leaves.
pub fn sheet_program() -> PathBuf {
    match env::var_os("SHEET_PROGRAM") {
        Some(path) => PathBuf::from(path),
        None => repository().join("target/bin/sheet"),
    }
}

fn this_program() -> PathBuf {
    env::current_exe().expect("the path of this program")
}

fn with(program: PathBuf, mode: &str) -> Command {
    let mut command = Command::new(program);
    command.arg(mode);
    command
}

/// The programs that bench/peers/build leaves.
fn boost() -> PathBuf {
    repository().join("target/peers/boost")
}

fn networkx() -> Command {
    let path = repository().join("target/peers/python");
    let python = fs::read_to_string(path).expect("what bench/peers/build leaves");
    let mut command = Command::new(python.trim());
    command.arg(repository().join("bench/peers/largest_first.py"));
    command
}

fn versions() -> String {
    let said = |mut command: Command| output_of(command.arg("version"), b"").0;
    let said = [said(Command::new(boost())), said(networkx())];
    let said = said.map(|bytes| String::from_utf8_lossy(&bytes).trim().to_string());
    said.join("; ")
}

/// What the program prints for a list, and the time from its start to its end.
fn output_of(command: &mut Command, list: &[u8]) -> (Vec<u8>, f64) {
    let start = Instant::now();
    let mut program = command
        .stdin(Stdio::piped())
        .stdout(Stdio::piped())
        .spawn()
        .unwrap_or_else(|error| panic!("{command:?}: {error}"));
    let mut input = program.stdin.take().expect("standard input is a pipe");
    let output = thread::scope(|scope| {
        scope.spawn(move || input.write_all(list).expect("the list is read"));
        program.wait_with_output().expect("the program ends")
    });
    (output.stdout, start.elapsed().as_secs_f64())
}

/// Reads an accepted list from standard input and prints its sheet, by a mode.
pub fn from_scratch(mode: &str) -> io::Result<()> {
    let mut list = Vec::new();
    io::stdin().read_to_end(&mut list)?;
    let sheet = match mode {
        EVERY_ROW => colour_rows(&list, true),
        AT_END => colour_rows(&list, false),
        MODEL => program_output(&list),
        _ => panic!("no such mode: {mode}"),
    };
    io::stdout().write_all(&sheet)
}

/// The sheet of a list, coloured at its end, and if so after every row but the K rows too.
fn colour_rows(list: &[u8], every_row: bool) -> Vec<u8> {
    let mut rows = rows(list).into_iter();
    let banks = rows.next().and_then(n_row).expect("an N row");
    let mut clashes = Clashes::none(banks);
    let mut ranks = vec![0; banks];
    let mut colouring = None;
    for row in rows {
        match later_row(row).expect("an accepted list") {
            Row::Rank(b, rank) => {
                ranks[b] = rank as u16;
                continue;
            }
            Row::Add(a, b) => clashes.make(Edit::Add(a as u16, b as u16)),
            Row::Strike(a, b) => clashes.make(Edit::Strike(a as u16, b as u16)),
            Row::StrikeAll(b) => drop(clashes.strike_all(b as u16)),
        }
        if every_row {
            let colouring = colouring.get_or_insert_with(|| Colouring::new(&ranks));
            colouring.by_counting_sort(&clashes.neighbours, &clashes.degrees);
        }
    }
    let mut colouring = colouring.unwrap_or_else(|| Colouring::new(&ranks));
    colouring.by_counting_sort(&clashes.neighbours, &clashes.degrees);
    sheet_of(&colouring, &clashes)
}
