//! The lists in the folder examples: the programs print for them what stands beside them.

use program_tests::run;
use std::fs;
use std::path::{Path, PathBuf};

/// The lists of the folder that have a file with this ending beside them, and what that file holds.
fn lists_with(ending: &str) -> Vec<(Vec<u8>, Vec<u8>)> {
    let folder = Path::new(env!("CARGO_MANIFEST_DIR")).join("../../examples");
    let files = fs::read_dir(folder).expect("the folder examples");
    let files: Vec<PathBuf> = files.map(|file| file.expect("a file").path()).collect();
    let found: Vec<_> = files
        .iter()
        .filter(|file| file.extension().map_or(false, |is| is == ending))
        .map(|file| {
            let list = fs::read(file.with_extension("list")).expect("its list");
            (list, fs::read(file).expect("what is to be printed"))
        })
        .collect();
    assert!(!found.is_empty());
    found
}

#[test]
fn sheets_beside_their_lists() {
    for (list, sheet) in lists_with("sheet") {
        assert_eq!(run::sheet_program(&list), sheet);
    }
}

#[test]
fn posters_beside_their_lists() {
    for (list, poster) in lists_with("poster") {
        assert_eq!(run::poster_program(&list), poster);
    }
}

/// The sheets of README.md for six banks: the planner's, a dispatcher's, and two that are refused.
#[test]
fn sheets_drawn_up_by_a_dispatcher() {
    for (list, drawn) in lists_with("drawn") {
        let own = run::agree_on(&list, &run::sheet_program(&list)).output;
        assert_eq!(own, b"ACCEPTED\nthe planner's own sheet\n");
        let other = run::agree_on(&list, &drawn).output;
        assert_eq!(other, b"ACCEPTED\nnot the planner's own sheet\n");
        let drawn = String::from_utf8(drawn).expect("ASCII");
        for (from, to, wanted) in [
            (
                "0 3 5\nB 1 2 4",
                "0 3\nB 1 2 4 5",
                "REFUSED 27 banks 1 and 5 clash in wave B\n",
            ),
            ("TOTAL 6 5", "TOTAL 6 6", "REFUSED 26 line 4\n"),
        ] {
            let changed = drawn.replace(from, to);
            assert_ne!(changed, drawn);
            let told = run::agree_on(&list, changed.as_bytes()).output;
            assert_eq!(told, wanted.as_bytes());
        }
    }
}
