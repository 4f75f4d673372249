//! How the program is called, and how it ends.

use crate::process::{feed, printed, run, spawn, start, DESK};
use crate::support::Folder;
use independent::graph::Graph;
use independent::journal::started;
use std::fs;
use std::path::Path;
use std::process::Command;

/// Wrong arguments print one line on standard error, which says how to call it, and nothing else.
#[test]
fn arguments() {
    for arguments in [&["a", "b"][..], &["--help"], &["-"]] {
        let output = run(arguments, "open 1\n");
        assert_eq!(output.status.code(), Some(2));
        assert_eq!(output.stdout, b"");
        let usage = "usage: desk [JOURNAL], then a command in each line of standard input; help lists them\n";
        assert_eq!(String::from_utf8_lossy(&output.stderr), usage);
    }
}

/// The transcript in README.md.
#[test]
fn dispatcher_s_question() {
    let repository = Path::new(env!("CARGO_MANIFEST_DIR")).join("..");
    let example = |name: &str| {
        fs::read_to_string(repository.join("examples").join(name)).expect("an example")
    };
    let child = spawn(Command::new(DESK).current_dir(&repository));
    let output = feed(child, &example("why.desk"));
    assert_eq!(printed(&output), example("why.answer"));
}

/// Where answers cannot be written the program ends, and says so.
#[test]
fn full_output() {
    let script = "exec \"$0\" >/dev/full";
    let child = spawn(Command::new("sh").args(["-c", script, DESK]));
    let output = feed(child, "open 1\n");
    assert_eq!(output.status.code(), Some(1));
    let why = "desk: No space left on device (os error 28)\n";
    assert_eq!(String::from_utf8_lossy(&output.stderr), why);
}

/// A desk that ends at once does no harm to the file.
#[test]
fn nothing_said() {
    let folder = Folder::new();
    let file = folder.file("day.journal", &started(&Graph::of(3, [(0, 1)])));
    let child = start(&[&file]);
    assert!(child.wait_with_output().expect("it ends").status.success());
    assert_eq!(
        fs::read(&file).expect("it is there"),
        started(&Graph::of(3, [(0, 1)]))
    );
}
