//! Disks that fail, full journals, and paths that are no files: a clear line, and nothing is lost.

use crate::desk_here::Desk;
use crate::support::Folder;
use desk::disk::Disk;
use desk::journal::Journal;
use independent::graph::Graph;
use independent::journal::started;
use std::cell::RefCell;
use std::fs;
use std::io;
use std::path::Path;
use std::rc::Rc;
use wave_plan::{Bank, Plan};

/// What fails on a disk of the tests.
#[derive(Clone, Copy, Default)]
struct Faults {
    write: bool,
    sync: bool,
    cut: bool,
}

/// A disk that fails as it is told to: a write comes half as far, a sync comes after the whole write.
#[derive(Default)]
struct Shared {
    faults: Faults,
    bytes: Vec<u8>,
}

struct FailingDisk(Rc<RefCell<Shared>>);

fn fault() -> io::Error {
    io::Error::other("a fault")
}

impl Disk for FailingDisk {
    fn append(&mut self, length: u64, bytes: &[u8]) -> io::Result<()> {
        let mut shared = self.0.borrow_mut();
        let Faults { write, sync, .. } = shared.faults;
        shared.bytes.truncate(length as usize);
        let written = if write { bytes.len() / 2 } else { bytes.len() };
        shared.bytes.extend(&bytes[..written]);
        if write || sync {
            Err(fault())
        } else {
            Ok(())
        }
    }

    fn cut(&mut self, length: u64) -> io::Result<()> {
        let mut shared = self.0.borrow_mut();
        if shared.faults.cut {
            return Err(fault());
        }
        shared.bytes.truncate(length as usize);
        Ok(())
    }

    fn replace(&mut self, bytes: &[u8]) -> io::Result<()> {
        let mut shared = self.0.borrow_mut();
        if shared.faults.write {
            return Err(fault());
        }
        shared.bytes = bytes.to_vec();
        Ok(())
    }

    fn is_at(&self, _: &Path) -> bool {
        false
    }
}

/// A journal of three banks on such a disk, and its plan.
fn on_failing_disk() -> (Journal, Rc<RefCell<Shared>>, Plan) {
    let plan = Plan::open(3).expect("three banks");
    let bytes = plan.start_journal().expect("a journal");
    let shared = Rc::new(RefCell::new(Shared {
        faults: Faults::default(),
        bytes: bytes.clone(),
    }));
    let disk = Box::new(FailingDisk(Rc::clone(&shared)));
    (
        Journal::new(disk, bytes, "day.journal".to_string()),
        shared,
        plan,
    )
}

/// A fault leaves bytes and file as they were, and the same edit is made once it is gone.
#[test]
fn faults_while_an_edit_is_recorded() {
    let faults = [(true, false), (false, true)];
    for (write, sync) in faults {
        let (mut journal, shared, plan) = on_failing_disk();
        let before = shared.borrow().bytes.clone();
        let cut = false;
        shared.borrow_mut().faults = Faults { write, sync, cut };
        let failed = journal.record(|bytes| plan.clone().add_recorded(Bank(0), Bank(1), bytes));
        let why = failed.expect_err("a fault").to_string();
        assert_eq!(why, "not made, day.journal could not be written: a fault");
        assert_eq!(shared.borrow().bytes, before);
        shared.borrow_mut().faults = Faults::default();
        let made = journal.record(|bytes| plan.clone().add_recorded(Bank(0), Bank(1), bytes));
        made.expect("no fault");
        assert_eq!(shared.borrow().bytes, started(&Graph::of(3, [(0, 1)])));
    }
}

/// Where the file cannot be cut back either, that is said, and the next edit takes the place of what was left.
#[test]
fn faults_while_it_is_cut_back() {
    let (mut journal, shared, plan) = on_failing_disk();
    shared.borrow_mut().faults = Faults {
        write: false,
        sync: true,
        cut: true,
    };
    let failed = journal.record(|bytes| plan.clone().add_recorded(Bank(0), Bank(1), bytes));
    let why = failed.expect_err("a fault").to_string();
    assert_eq!(
        why,
        "not made, day.journal could not be written: a fault; nor cut back: a fault"
    );
    shared.borrow_mut().faults = Faults::default();
    let made = journal.record(|bytes| plan.clone().add_recorded(Bank(1), Bank(2), bytes));
    made.expect("no fault");
    assert_eq!(shared.borrow().bytes, started(&Graph::of(3, [(1, 2)])));
}

/// A journal that cannot be started anew stays, and is gone on with.
#[test]
fn faults_while_it_is_started_anew() {
    let (mut journal, shared, mut plan) = on_failing_disk();
    let before = shared.borrow().bytes.clone();
    shared.borrow_mut().faults.write = true;
    plan.set_rank(Bank(1), 5).expect("no edit yet");
    let failed = journal.restart(plan.start_journal().expect("a journal"));
    assert!(failed.is_err());
    assert_eq!(shared.borrow().bytes, before);
    shared.borrow_mut().faults.write = false;
    let mut plan = Plan::open(3).expect("three banks");
    let made = journal.record(|bytes| plan.add_recorded(Bank(1), Bank(2), bytes));
    made.expect("no fault");
    assert_eq!(shared.borrow().bytes, started(&Graph::of(3, [(1, 2)])));
}

/// A folder, a path below a file, a device and a missing folder are no files for a journal.
#[test]
fn no_files() {
    let folder = Folder::new();
    let below = folder.file("day.list", b"N 1\n") + "/day.journal";
    let missing = folder.path("missing/day.journal");
    let cases = [
        (
            folder.at().to_str().expect("UTF-8"),
            "Is a directory (os error 21)",
        ),
        (&below, "Not a directory (os error 20)"),
        (&missing, "No such file or directory (os error 2)"),
        ("/dev/full", "not a regular file"),
    ];
    let mut desk = Desk::default();
    desk.says("open 2");
    for (path, why) in cases {
        let said = desk.says(&format!("journal {path}"));
        assert_eq!(
            said,
            format!("journal {path}: the file could not be opened: {why}\n")
        );
    }
    assert_eq!(folder.names(), ["day.list"]);
    assert!(desk.says("+ 0 1").starts_with("+ 0 1: 2 taken up"));
}

/// A journal of 60,000 bytes is full: the edit gets 15 and is not made.
#[test]
fn full_journal() {
    let folder = Folder::new();
    let file = folder.path("day.journal");
    let mut plan = Plan::open(2).expect("two banks");
    let mut bytes = plan.start_journal().expect("a journal");
    while bytes.len() + 11 <= 60_000 {
        let made = if plan.clashes() == 0 {
            plan.add_recorded(Bank(0), Bank(1), &mut bytes)
        } else {
            plan.strike_recorded(Bank(0), Bank(1), &mut bytes)
        };
        made.expect("there is space");
    }
    fs::write(&file, &bytes).expect("it is written");
    let line = if plan.clashes() == 0 {
        "+ 0 1"
    } else {
        "- 0 1"
    };
    let mut desk = Desk::default();
    desk.says(&format!("journal {file}"));
    let full = "refused 15: Is there space in the slice, and in 60,000 bytes, for what is to be written? No. To \
        do: lend more; a journal that is full ends there\n";
    assert_eq!(desk.says(line), format!("{line}: {full}"));
    assert_eq!(fs::read(&file).expect("it is there"), bytes);
    let next = folder.path("next.journal");
    assert!(desk
        .says(&format!("journal {next}\n{line}"))
        .contains(": 2 taken up, 1 moved\n"));
}
