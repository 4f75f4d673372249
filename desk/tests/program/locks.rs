//! Two desks and one journal.

use crate::process::{printed, run, start};
use crate::support::Folder;
use std::io::{BufRead, BufReader, Write};

/// A second desk does not get the file, neither before nor after it was started anew, until the first has ended.
#[test]
fn locked() {
    let folder = Folder::new();
    let file = folder.path("day.journal");
    let mut first = start(&[]);
    let mut lines = first.stdin.take().expect("a pipe");
    let mut answers = BufReader::new(first.stdout.take().expect("a pipe")).lines();
    let mut answered = |line: &str, count: usize| {
        writeln!(lines, "{line}").expect("it is read");
        for _ in 0..count {
            answers.next().expect("an answer").expect("a text");
        }
    };
    let busy = format!("journal {file}: the file could not be opened: another desk has it open\n");
    answered("open 3", 1);
    answered(&format!("journal {file}"), 1);
    assert_eq!(printed(&run(&[&file], "")), busy);
    answered("K 1 2", 1);
    assert_eq!(printed(&run(&[&file], "")), busy);
    answered("+ 0 1", 2);
    drop(answers);
    drop(lines);
    assert!(first.wait().expect("it ends").success());
    let said = printed(&run(&[&file], "clashes 0\n"));
    assert!(said.ends_with("\n1\n"), "{said}");
}
