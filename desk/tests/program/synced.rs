//! What a desk asks of the system, in turn: an edit is written and synced before it is answered. A kill alone would
//! not show it, since the system keeps what a killed program has written.

use crate::process::{feed, spawn, DESK};
use crate::support::Folder;
use std::fs;
use std::process::Command;

/// The calls to the system that write, sync or rename, by name, as valgrind notes them; `answer` for a write to
/// standard output.
fn system_calls(folder: &Folder, input: &str) -> Vec<String> {
    let log = folder.path("log");
    let log_file = format!("--log-file={log}");
    let mut command = Command::new("valgrind");
    command.args(["-q", "--trace-syscalls=yes", &log_file, DESK]);
    let output = feed(spawn(&mut command), input);
    assert!(output.status.success(), "{}", output.status);
    let log = fs::read_to_string(&log).expect("it is there");
    log.lines().filter_map(system_call).collect()
}

/// The call of a line such as `SYSCALL[9,1](75) sys_fdatasync ( 4 ) ..`, if it is one of these.
fn system_call(line: &str) -> Option<String> {
    let (_, call) = line.split_once(" sys_")?;
    let (name, arguments) = call.split_once(" ( ")?;
    match name {
        "write" if arguments.starts_with("1,") => Some("answer".to_string()),
        "write" | "pwrite64" | "fsync" | "fdatasync" | "rename" | "ftruncate" => {
            Some(name.to_string())
        }
        _ => None,
    }
}

#[test]
fn synced_before_it_is_answered() {
    let folder = Folder::new();
    let file = folder.path("day.journal");
    let input = format!("open 3\njournal {file}\nK 1 2\n+ 0 1\n+ 0 2\n+ 0 0\nD 0\nundo\n");
    let opened = ["answer"];
    let started = ["write", "fsync", "rename", "fsync", "answer"];
    let edited = ["pwrite64", "fdatasync", "answer"];
    let refused = ["answer"];
    let expected: [&[&str]; 9] = [
        &opened, &started, &started, &edited, &edited, &refused, &edited, &edited, &edited,
    ];
    assert_eq!(system_calls(&folder, &input), expected.concat());
}

/// The bytes left over are cut off, and that is synced, before an edit is written.
#[test]
fn cut_off_and_synced() {
    let folder = Folder::new();
    let file = folder.file("day.journal", &[0x4E, 2, 0, 3, 0, 0x2B, 8]);
    let calls = system_calls(&folder, &format!("journal {file}\n+ 0 1\n"));
    let expected = [
        "ftruncate",
        "fsync",
        "answer",
        "answer",
        "pwrite64",
        "fdatasync",
        "answer",
    ];
    assert_eq!(calls, expected);
    assert_eq!(fs::read(&file).expect("it is there").len(), 16);
}
