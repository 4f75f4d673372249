//! A full disk and read-only files: a clear line, and nothing is lost.

use crate::process::{feed, printed, spawn, DESK};
use crate::support::{sheet, Folder};
use independent::graph::Graph;
use independent::journal::started;
use std::fs::{self, Permissions};
use std::io::{BufRead, BufReader, Lines, Write};
use std::os::unix::fs::{MetadataExt, PermissionsExt};
use std::os::unix::process::CommandExt;
use std::path::Path;
use std::process::{Child, ChildStdin, ChildStdout, Command, Output};

/// A desk whose files may have 512 bytes: a write beyond is cut there and then fails, as on a full disk. The shell
/// ignores the signal that comes with it, and so do the programs that it starts.
fn limited(journal: &str) -> Child {
    let script = "trap '' XFSZ; ulimit -S -f 1; exec \"$0\" \"$1\"";
    spawn(Command::new("sh").args(["-c", script, DESK, journal]))
}

/// Takes the limit from a running program.
fn unlimited(id: u32) {
    let id = id.to_string();
    let child = spawn(Command::new("prlimit").args(["--pid", &id, "--fsize=unlimited:"]));
    assert!(feed(child, "").status.success());
}

/// A desk that is spoken to line by line.
struct Talk {
    lines: ChildStdin,
    answers: Lines<BufReader<ChildStdout>>,
}

impl Talk {
    fn with(child: &mut Child) -> Talk {
        let lines = child.stdin.take().expect("a pipe");
        let out = child.stdout.take().expect("a pipe");
        let answers = BufReader::new(out).lines();
        Talk { lines, answers }
    }

    /// Says a line, and reads answers up to one that starts so.
    fn say(&mut self, line: &str, wanted: &str) {
        writeln!(self.lines, "{line}").expect("it is read");
        loop {
            let answer = self.answers.next().expect("an answer").expect("a text");
            if answer.starts_with(wanted) {
                return;
            }
            assert!(!answer.contains("not made"), "{line}: {answer}");
        }
    }
}

/// The journal has space for 46 edits. The next is not made, however often it is tried; what was acknowledged stays,
/// and when there is space again edits go on.
#[test]
fn full_disk() {
    let folder = Folder::new();
    let file = folder.file("day.journal", &started(&Graph::empty(12)));
    let pairs = (0..12).flat_map(|a| (a + 1..12).map(move |b| (a, b)));
    let mut child = limited(&file);
    let mut talk = Talk::with(&mut child);
    for (a, b) in pairs.clone().take(46) {
        talk.say(&format!("+ {a} {b}"), &format!("+ {a} {b}: "));
    }
    let whole = started(&Graph::of(12, pairs.clone().take(46)));
    assert_eq!(fs::read(&file).expect("it is there"), whole);
    let (a, b) = pairs.clone().nth(46).expect("there are 66");
    let full =
        format!("+ {a} {b}: not made, {file} could not be written: File too large (os error 27)");
    for _ in 0..2 {
        talk.say(&format!("+ {a} {b}"), &full);
        assert_eq!(fs::read(&file).expect("it is there"), whole);
    }
    talk.say("sheet", "TOTAL 12 46");
    unlimited(child.id());
    talk.say(&format!("+ {a} {b}"), &format!("+ {a} {b}: "));
    talk.say("sheet", "TOTAL 12 47");
    drop(talk);
    assert!(child.wait().expect("it ends").success());
    let all = started(&Graph::of(12, pairs.take(47)));
    assert_eq!(fs::read(&file).expect("it is there"), all);
}

/// A journal that does not fit is not started: the one that is on stays on, and no file is left behind.
#[test]
fn full_disk_at_the_start() {
    let folder = Folder::new();
    let graph = Graph::of(12, (0..12).flat_map(|a| (0..a).map(move |b| (a, b))));
    let first = folder.file("first.journal", &started(&graph));
    let second = folder.path("second.journal");
    let input = format!("journal {second}\n- 0 1\nsheet\n");
    let said = printed(&feed(limited(&first), &input));
    let large = "could not be written: File too large (os error 27)\n";
    let not_started = format!("journal {second}: not started, the file {large}");
    let not_made = format!("- 0 1: not made, {first} {large}");
    let end = format!("{not_started}{not_made}{}", sheet(&graph));
    assert!(said.ends_with(&end), "{said}");
    assert_eq!(fs::read(&first).expect("it is there"), started(&graph));
    assert_eq!(folder.names(), ["first.journal"]);
}

/// Runs a copy of the desk as a user whom permissions bind, where the tests run as one whom they do not.
fn run_bound(folder: &Folder, input: &str) -> Output {
    let copy = folder.path("desk");
    // By a process of its own: a file that this one has open for writing might still be so in a process that is being
    // started.
    let copied = feed(spawn(Command::new("cp").args([DESK, &copy])), "");
    assert!(copied.status.success());
    let mut command = Command::new(&copy);
    let root = fs::metadata("/proc/self").expect("it is there").uid() == 0;
    if root {
        command.uid(65534).gid(65534);
    }
    feed(spawn(&mut command), input)
}

/// A read-only file, a new file in a read-only folder and an empty one there: the plan stays, and edits go on without
/// a journal.
#[test]
fn read_only() {
    let folder = Folder::new();
    let graph = Graph::of(3, [(0, 1)]);
    let file = folder.file("day.journal", &started(&graph));
    fs::set_permissions(&file, Permissions::from_mode(0o444)).expect("it is set");
    let inner = folder.at().join("inner");
    fs::create_dir(&inner).expect("a new folder");
    let empty = folder.file("inner/empty.journal", b"");
    fs::set_permissions(&empty, Permissions::from_mode(0o666)).expect("it is set");
    fs::set_permissions(&inner, Permissions::from_mode(0o555)).expect("it is set");
    fs::set_permissions(folder.at(), Permissions::from_mode(0o755)).expect("it is set");
    let new = folder.path("inner/new.journal");
    let input =
        format!("open 2\njournal {file}\njournal {new}\njournal {empty}\nsheet {file}\n+ 0 1\n");
    let said = printed(&run_bound(&folder, &input));
    fs::set_permissions(&inner, Permissions::from_mode(0o755)).expect("it is set");
    let denied = "Permission denied (os error 13)";
    let expected = format!(
        "banks 2, clashes 0, waves 1, cap 24\n\
        journal {file}: the file could not be opened: {denied}\n\
        journal {new}: the file could not be opened: {denied}\n\
        journal {empty}: not started, the file could not be written: {denied}\n\
        sheet {file}: the file could not be written: {denied}\n\
        + 0 1: 2 taken up, 1 moved\n1: A to B\n"
    );
    assert_eq!(said, expected);
    assert_eq!(fs::read(&file).expect("it is there"), started(&graph));
    assert_eq!(fs::read(&empty).expect("it is there"), b"");
    assert!(!Path::new(&new).exists());
}
