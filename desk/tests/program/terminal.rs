//! Prompt and colour are for a terminal alone: standard input and output must both be one.

use crate::process::{feed, spawn, DESK};
use std::process::Command;

/// What a desk prints for some lines where its input, its output or both are terminals.
fn on_terminal(which: &str) -> String {
    let script = concat!(env!("CARGO_MANIFEST_DIR"), "/tests/program/terminal.py");
    let child = spawn(Command::new("python3").args([script, which, DESK]));
    let output = feed(child, "");
    let error = String::from_utf8_lossy(&output.stderr);
    assert!(output.status.success(), "{error}");
    String::from_utf8(output.stdout).expect("a text")
}

#[test]
fn prompt_and_colour() {
    let expected = "> banks 2, clashes 0, waves 1, cap 24\n\
        > \x1b[1m+ 0 1: 2 taken up, 1 moved\x1b[0m\n1: A to B\n\
        > \x1b[31mfly: no such command; help lists them\x1b[0m\n\
        > \n";
    assert_eq!(on_terminal("both"), expected);
}

#[test]
fn neither() {
    let expected = "banks 2, clashes 0, waves 1, cap 24\n\
        + 0 1: 2 taken up, 1 moved\n1: A to B\n\
        fly: no such command; help lists them\n";
    for which in ["input", "output", "none"] {
        assert_eq!(on_terminal(which), expected, "{which}");
    }
}
