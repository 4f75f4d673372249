//! The built program *agree* against the model: the planner's own sheets, those of other waves, sheets one byte
//! away from a good one, refused lists, and wrong arguments.

use independent::lists;
use independent::memory::Memory;
use independent::random::Random;
use independent::sheet::sheet_text;
use independent::sheets::{any_waves, one_byte_off, other_waves, wrong_sheets};
use program_tests::{agree_agrees_with_model, run};

const SQUARE: &[u8] = b"N 4\n+ 0 1\n+ 1 2\n+ 2 3\n+ 0 3";
const OWN: &str = "ACCEPTED\nthe planner's own sheet\n";
const OTHER: &str = "ACCEPTED\nnot the planner's own sheet\n";

/// What is printed for this list and sheet, which is also what the model says.
fn printed(list: &[u8], sheet: &[u8]) -> String {
    let output = agree_agrees_with_model(list, sheet);
    String::from_utf8(output).expect("ASCII")
}

#[test]
fn the_paper_s_four_banks() {
    for (sheet, wanted) in [
        ("WAVES 2\nA 0 2\nB 1 3\nTOTAL 4 4\n", OWN),
        ("WAVES 2\nA 1 3\nB 0 2\nTOTAL 4 4\n", OTHER),
        ("WAVES 2\nA 0 2\nB 1 3\nTOTAL 4 4", "REFUSED 26 line 4\n"),
        ("WAVES 2\nA 2 0\nB 1 3\nTOTAL 4 4\n", "REFUSED 26 line 2\n"),
        ("", "REFUSED 26 line 1\n"),
        (
            "WAVES 3\nA 0\nB 1 3\nC 2\nTOTAL 4 4\n",
            "REFUSED 27 more than 2 waves\n",
        ),
        (
            "WAVES 2\nA 0\nB 1 2 3\nTOTAL 4 4\n",
            "REFUSED 27 banks 1 and 2 clash in wave B\n",
        ),
    ] {
        assert_eq!(printed(SQUARE, sheet.as_bytes()), wanted);
    }
}

/// M9 has three waves where two are enough.
#[test]
fn fewer_waves_than_the_planner_s() {
    let list = b"N 6\n+ 0 4\n+ 0 2\n+ 2 3\n+ 1 3\n+ 1 5";
    assert!(run::sheet_program(list).starts_with(b"WAVES 3"));
    let sheet = b"WAVES 2\nA 0 3 5\nB 1 2 4\nTOTAL 6 5\n";
    assert_eq!(printed(list, sheet), OTHER);
}

/// What the program *sheet* prints for a list is its own sheet; a byte changed, dropped or added makes it none.
#[test]
fn sheets_of_the_edge_lists() {
    let mut random = Random::new(221);
    let mut sheets = 0;
    for case in lists::edges() {
        let sheet = run::sheet_program(&case.list);
        if !sheet.starts_with(b"WAVES") {
            assert_eq!(printed(&case.list, b"").as_bytes(), sheet);
            continue;
        }
        sheets += 1;
        assert_eq!(printed(&case.list, &sheet), OWN);
        for _ in 0..3 {
            let place = random.below(sheet.len() + 1);
            let near = one_byte_off(&sheet, [place]);
            for _ in 0..4 {
                let verdict = printed(&case.list, random.pick(&near[..]).as_slice());
                assert!(verdict.starts_with("REFUSED 26 line "), "{verdict}");
            }
        }
    }
    assert!(sheets > 20);
}

/// At each byte of the example's sheet half of the ways to change, drop and add one.
#[test]
fn sheets_one_byte_away_from_a_good_one() {
    let sheet = run::sheet_program(SQUARE);
    let near = one_byte_off(&sheet, 0..=sheet.len());
    for near in near.iter().step_by(2) {
        printed(SQUARE, near);
    }
}

/// Random lists, and sheets of their plans' waves, of others, and with banks twice, missing or out of order.
#[test]
fn random_lists() {
    let mut random = Random::new(222);
    let mut accepted = [0, 0];
    for _ in 0..300 {
        let list = lists::random_list(&mut random);
        let mut memory = Memory::filled(1024, 0);
        memory.read_list(&list);
        let Some(graph) = memory.held_graph() else {
            printed(&list, b"WAVES 0\nTOTAL 0 0\n");
            continue;
        };
        let waves = match random.below(4) {
            0 => graph.waves(),
            1 => any_waves(&mut random, graph.banks(), 24),
            _ => other_waves(&mut random, &graph),
        };
        let verdict = printed(&list, sheet_text(&waves, graph.clashes()).as_bytes());
        accepted[0] += usize::from(verdict == OWN);
        accepted[1] += usize::from(verdict == OTHER);
        let wrong = wrong_sheets(&mut random, &waves, graph.clashes());
        for _ in 0..3 {
            printed(&list, random.pick(&wrong[..]).as_slice());
        }
    }
    assert!(accepted.iter().all(|&times| times > 10), "{accepted:?}");
}

/// The longest sheet, one byte more, and much more.
#[test]
fn long_sheets() {
    let mut list = String::from("N 1024");
    for b in 0..1024 {
        for a in b - b % 24..b {
            list += &format!("\n+ {a} {b}");
        }
        if list.len() > 59_980 {
            break;
        }
    }
    list.truncate(list.len().min(60_000));
    let list = &list[..list.rfind('\n').expect("rows")];
    let sheet = run::sheet_program(list.as_bytes());
    assert_eq!(printed(list.as_bytes(), &sheet), OWN);
    for more in [1, 200_000] {
        for byte in *b"\n 0" {
            let long = [&sheet[..], &vec![byte; more]].concat();
            let verdict = printed(list.as_bytes(), &long);
            assert!(verdict.starts_with("REFUSED 26 line "), "{verdict}");
        }
    }
    let numbers: String = (0..20_000).map(|b| format!(" {b}")).collect();
    let line = format!("WAVES 1\nA{numbers}\nTOTAL 1024 0\n");
    assert_eq!(printed(b"N 1024", line.as_bytes()), "REFUSED 26 line 2\n");
    let lines = format!("WAVES 24\n{}", "\n".repeat(100_000));
    assert_eq!(printed(b"N 1024", lines.as_bytes()), "REFUSED 26 line 2\n");
}

/// A list that is refused: its own line, whatever the sheet.
#[test]
fn refused_lists() {
    for list in lists::malformed_lists().into_iter().step_by(7) {
        let verdict = printed(&list, b"WAVES 0\nTOTAL 0 0\n");
        assert_eq!(verdict.as_bytes(), run::sheet_program(&list));
    }
    let long = vec![b'\n'; 60_001];
    assert_eq!(printed(&long, b""), "REFUSED 9 ROW 0\n");
}

/// Nothing on standard output, and one line on standard error.
fn only_told(arguments: &[&str]) -> String {
    let told = run::agree_program(arguments);
    assert_eq!(told.output, b"");
    let line = String::from_utf8(told.errors).expect("ASCII");
    assert_eq!(line.matches('\n').count(), 1);
    assert!(line.ends_with('\n'));
    line
}

/// Other than two arguments: how to call it. A file that cannot be read: which.
#[test]
fn wrong_arguments() {
    let folder = run::Folder::new();
    let list = folder.file("list", SQUARE);
    let sheet = folder.file("sheet", b"WAVES 0\nTOTAL 0 0\n");
    let wrong: [&[&str]; 4] = [&[], &[&list], &[&list, &sheet, &sheet], &["", "", "", ""]];
    for arguments in wrong {
        assert_eq!(only_told(arguments), "usage: agree LIST SHEET\n");
    }
    let none = format!("{list}.none");
    let name = "x".repeat(5000);
    for list in [&none, "", "/", &name] {
        assert_eq!(only_told(&[list, &sheet]), "LIST cannot be read\n");
    }
    for sheet in [&none, "", "/", &name] {
        assert_eq!(only_told(&[&list, sheet]), "SHEET cannot be read\n");
    }
}
