//! What the programs in `examples` print.

use std::env;
use std::fs;
use std::io::Write;
use std::path::Path;
use std::process::{Command, Stdio};

/// What an example prints for some input. Cargo leaves the examples beside the folder of the test programs.
fn printed(example: &str, input: &[u8]) -> String {
    let test = env::current_exe().expect("the path of this program");
    let programs = test.parent().and_then(Path::parent).expect("two folders");
    let mut run = Command::new(programs.join("examples").join(example))
        .stdin(Stdio::piped())
        .stdout(Stdio::piped())
        .spawn()
        .expect("the example starts");
    let mut stdin = run.stdin.take().expect("a pipe");
    stdin.write_all(input).expect("the input is taken");
    drop(stdin);
    let run = run.wait_with_output().expect("the example ends");
    assert!(run.status.success(), "{}", run.status);
    String::from_utf8(run.stdout).expect("text")
}

/// A file of the repository.
fn file(path: &str) -> Vec<u8> {
    let root = Path::new(env!("CARGO_MANIFEST_DIR")).join("../..");
    fs::read(root.join(path)).expect("a file of the repository")
}

/// As the example for C.
#[test]
fn four_banks() {
    let expected = file("tests/c/expected.txt");
    assert_eq!(printed("four_banks", b"").into_bytes(), expected);
}

#[test]
fn sheet_of_list() {
    for name in ["depot", "six_banks", "street", "street_sold"] {
        let list = file(&format!("examples/{name}.list"));
        let sheet = file(&format!("examples/{name}.sheet"));
        assert_eq!(printed("sheet_of_list", &list).into_bytes(), sheet);
    }
}

#[test]
fn sheet_of_a_refused_list() {
    let refusal = "REFUSED 6 ROW 3\n\
                   Are the two banks free of a clash so far? No.\n\
                   To do: nothing, they clash already.\n";
    assert_eq!(printed("sheet_of_list", b"N 4\n+ 0 1\n+ 1 0"), refusal);
}

/// 5 bytes, then 11 for each edit; the third is cut after 7, struck from the journal, and another one comes in its place.
#[test]
fn cut_journal() {
    let lines = "recorded: 38 bytes, Plan { banks: 4, clashes: 1, waves: 2, cap: 24, .. }\n\
                 replayed: 7 bytes left over, Plan { banks: 4, clashes: 2, waves: 2, cap: 24, .. }\n\
                 recorded: 38 bytes, Plan { banks: 4, clashes: 1, waves: 2, cap: 24, .. }\n\
                 the same again: true\n";
    assert_eq!(printed("cut_journal", b""), lines);
}

/// M8 and M9, and back.
#[test]
fn kept_plan() {
    let lines = "- 2 5: 3 waves\n0: B to A\n2: A to B\n3: B to C\n4: A to B\n\
                 MORNING: 2 waves\n0: A to B\n2: B to A\n3: C to B\n4: B to A\n";
    assert_eq!(printed("kept_plan", b""), lines);
}
