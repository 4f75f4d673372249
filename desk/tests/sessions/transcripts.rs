//! What each command answers. The expected lines are written by hand from the papers.

use crate::desk_here::{says, Desk, M8};
use crate::support::Folder;
use std::fs::{self, Permissions};
use std::os::unix::fs::PermissionsExt;
use wave_plan::{Bank, Kind, LastEdit, Plan};

/// M1.
#[test]
fn no_banks() {
    let said = says("open 0\nsheet\n");
    assert_eq!(
        said,
        "banks 0, clashes 0, waves 0, cap 24\nWAVES 0\nTOTAL 0 0\n"
    );
}

/// M2 to M4.
#[test]
fn three_banks() {
    let mut desk = Desk::default();
    assert_eq!(desk.says("open 3"), "banks 3, clashes 0, waves 1, cap 24\n");
    assert_eq!(
        desk.says("+ 1 2"),
        "+ 1 2: 2 taken up, 1 moved\n2: A to B\n"
    );
    assert_eq!(
        desk.says("+ 0 1"),
        "+ 0 1: 2 taken up, 1 moved\n0: A to B\n"
    );
    let all = "+ 0 2: 3 taken up, 3 moved\n0: B to A\n1: A to B\n2: B to C\n";
    assert_eq!(desk.says("+ 0 2"), all);
    assert_eq!(desk.says("wave 0\nwave 1\nwave 2"), "A\nB\nC\n");
}

/// M5 to M7.
#[test]
fn four_banks() {
    let mut desk = Desk::default();
    desk.says("open 4\n+ 0 1\n+ 1 2\n+ 2 3");
    assert_eq!(desk.says("sheet"), "WAVES 2\nA 1 3\nB 0 2\nTOTAL 4 3\n");
    let added = "+ 0 3: 4 taken up, 4 moved\n0: B to A\n1: A to B\n2: B to A\n3: A to B\n";
    assert_eq!(desk.says("+ 0 3"), added);
    let struck = "- 0 3: 4 taken up, 4 moved\n1: B to A\n2: A to B\n0: A to B\n3: B to A\n";
    assert_eq!(desk.says("- 0 3"), struck);
}

/// M8 and M9: the dispatcher's question. Bank 0 is not named in the row.
#[test]
fn six_banks() {
    let folder = Folder::new();
    let list = folder.file("six.list", M8.as_bytes());
    let mut desk = Desk::default();
    let loaded = desk.says(&format!("load {list}"));
    assert_eq!(loaded, "banks 6, clashes 6, waves 2, cap 24\n");
    assert_eq!(desk.says("sheet"), "WAVES 2\nA 1 2 4\nB 0 3 5\nTOTAL 6 6\n");
    let struck = "- 2 5: 5 taken up, 4 moved\n0: B to A\n2: A to B\n3: B to C\n4: A to B\n";
    assert_eq!(desk.says("- 2 5"), struck);
    assert_eq!(
        desk.says("sheet"),
        "WAVES 3\nA 0 1\nB 2 4 5\nC 3\nTOTAL 6 5\n"
    );
    assert_eq!(desk.says("clashes 2\nclashes 5"), "0 3\n1\n");
}

/// `why` is the explanation of the last edit, also of one that undoes, and of none where there is none.
#[test]
fn why() {
    let folder = Folder::new();
    let mut desk = Desk::with(&folder, M8);
    let none =
        "there is no edit to explain since the plan was opened, loaded, replayed or came back\n";
    assert_eq!(desk.says("why"), format!("why: {none}"));
    desk.says("- 2 5");
    let before = Plan::read_list(M8.as_bytes()).expect("a list");
    let mut after = before.clone();
    let edit = after.strike(Bank(2), Bank(5)).expect("they clash");
    let last = LastEdit::new(Kind::Striking, Bank(2), Bank(5), &before, &after, edit);
    assert_eq!(desk.says("why"), last.why_moved() + "\n");
    for b in 0..6 {
        let why = last.why(Bank(b)).expect("there is such a bank");
        assert_eq!(desk.says(&format!("why {b}")), why + "\n");
    }
    assert!(desk
        .says("why 6")
        .starts_with("why 6: refused 4: Is each named bank below"));
    desk.says("undo");
    let (mut undone, before) = (after.clone(), after);
    let edit = undone.add(Bank(2), Bank(5)).expect("they do not clash");
    let last = LastEdit::new(Kind::Adding, Bank(2), Bank(5), &before, &undone, edit);
    assert_eq!(desk.says("why"), last.why_moved() + "\n");
    desk.says("open 6");
    assert_eq!(desk.says("why 0"), format!("why 0: {none}"));
}

/// Each edit is undone in turn, and an undoing is not undone.
#[test]
fn undo() {
    let mut desk = Desk::default();
    desk.says("open 3\n+ 1 2\n+ 0 1");
    assert_eq!(desk.says("undo"), "- 0 1: 2 taken up, 1 moved\n0: B to A\n");
    assert_eq!(desk.says("undo"), "- 1 2: 2 taken up, 1 moved\n2: B to A\n");
    let none =
        "undo: there is no edit to undo since the plan was opened, loaded, replayed or came back\n";
    assert_eq!(desk.says("undo"), none);
    desk.says("+ 0 2\n- 0 2");
    assert_eq!(desk.says("undo"), "+ 0 2: 2 taken up, 1 moved\n2: A to B\n");
    assert_eq!(
        desk.says("undo\nundo"),
        format!("- 0 2: 2 taken up, 1 moved\n2: B to A\n{none}")
    );
}

/// An undoing that the cap refuses stays to be done.
#[test]
fn undo_under_a_cap() {
    let folder = Folder::new();
    let mut desk = Desk::with(&folder, M8);
    desk.says("- 2 5\n+ 2 5\ncap 2");
    let refused = "undo: - 2 5: refused 20: Is the cap not below the waves in use, and not below those that the \
        edit would need? \
        No. To do: raise the cap, or strike or add another clash first\n";
    assert_eq!(desk.says("undo"), refused);
    assert_eq!(desk.says("sheet"), "WAVES 2\nA 1 2 4\nB 0 3 5\nTOTAL 6 6\n");
    assert!(desk
        .says("cap 3\nundo")
        .starts_with("cap 3\n- 2 5: 5 taken up, 4 moved\n"));
}

/// `D b`: each strike is an edit of its own, lowest neighbour first, also for `undo`.
#[test]
fn strike_all() {
    let mut desk = Desk::default();
    desk.says("open 3\n+ 2 1\n+ 0 2");
    let struck =
        "- 2 0: 3 taken up, 3 moved\n1: B to A\n2: A to B\n0: B to A\n- 2 1: 2 taken up, 1 moved\n2: B to A\n";
    assert_eq!(desk.says("D 2"), struck);
    assert_eq!(desk.says("D 2"), "D 2: no clashes\n");
    assert_eq!(desk.says("undo"), "+ 2 1: 2 taken up, 1 moved\n2: A to B\n");
    let far = "D 3: refused 4: Is each named bank below the bank count? \
        No. To do: correct the bank, or open a plan of more banks\n";
    assert_eq!(desk.says("D 3"), far);
}

/// A strike of `D b` that is refused ends it; those before it stay.
#[test]
fn strike_all_under_a_cap() {
    let folder = Folder::new();
    let list = "N 6\n+ 0 1\n+ 0 2\n+ 1 3\n+ 1 4\n+ 2 3\n+ 3 5\n+ 4 5\n";
    let mut desk = Desk::with(&folder, list);
    desk.says("cap 2");
    let first = "- 1 0: 6 taken up, 6 moved\n3: B to A\n1: A to B\n2: A to B\n4: B to A\n5: A to B\n0: B to A\n";
    let second = "D 1: - 1 3: refused 20: Is the cap not below the waves in use, and not below those that the \
        edit would need? \
        No. To do: raise the cap, or strike or add another clash first\n";
    assert_eq!(desk.says("D 1"), format!("{first}{second}"));
    assert_eq!(desk.says("sheet"), "WAVES 2\nA 0 3 4\nB 1 2 5\nTOTAL 6 6\n");
}

/// The example of the README: without its ranks this list would put every bank into the other wave.
#[test]
fn ranks() {
    let mut desk = Desk::default();
    assert_eq!(
        desk.says("open 4\nK 0 10"),
        "banks 4, clashes 0, waves 1, cap 24\nbank 0 has rank 10\n"
    );
    desk.says("K 3 20\nK 1 30\nK 2 9999\nK 2 40\n+ 0 3\n+ 3 1\n+ 1 2");
    assert_eq!(desk.says("sheet"), "WAVES 2\nA 2 3\nB 0 1\nTOTAL 4 3\n");
    let late = "K 0 1: refused 18: Does the rank come before the first edit? \
        No. To do: set ranks before the first edit: K rows right after the N row, K fields before the edits\n";
    assert_eq!(desk.says("K 0 1"), late);
    desk.says("D 3\nD 1");
    assert_eq!(
        desk.says("K 0 1"),
        late,
        "edits were made, though no clash is left"
    );
    let far = "K 4 1: refused 4: Is each named bank below the bank count? \
        No. To do: correct the bank, or open a plan of more banks\n";
    assert!(desk.says("open 4\nK 4 1").ends_with(far));
}

/// Plans are kept by name and number of banks, with their caps.
#[test]
fn kept_plans() {
    let mut desk = Desk::default();
    desk.says("open 3\n+ 1 2\ncap 2");
    assert_eq!(desk.says("keep morning"), "kept as MORNING\n");
    desk.says("cap 24\n+ 0 1\n+ 0 2");
    assert_eq!(desk.says("keep Noon"), "kept as NOON\n");
    let back = "banks 3, clashes 1, waves 2, cap 2\nback MORNING: 2 moved\n1: B to A\n2: C to B\n";
    assert_eq!(desk.says("back MORNING"), back);
    assert!(desk.says("undo").starts_with("undo: there is no edit"));
    let none = "refused 17: Is a plan kept under the name? No. To do: keep a plan under it first\n";
    assert_eq!(desk.says("back CLOSE"), format!("back CLOSE: {none}"));
    assert!(
        desk.says("open 4\nback NOON").ends_with(none),
        "of three banks"
    );
    let back = "banks 3, clashes 3, waves 3, cap 24\nback NOON: 2 moved\n1: A to B\n2: A to C\n";
    assert!(desk.says("open 3\nback noon").ends_with(back));
    let name =
        "back DUSK: refused 16: Is the name MORNING, NOON or CLOSE? No. To do: use one of the three\n";
    assert_eq!(desk.says("back DUSK"), name);
}

/// The example of the README: at cap 2 the strike of M9 is refused, at cap 3 it is made.
#[test]
fn caps() {
    let folder = Folder::new();
    let mut desk = Desk::with(&folder, M8);
    assert_eq!(desk.says("cap"), "cap 24\n");
    assert_eq!(desk.says("cap 2"), "cap 2\n");
    let refused =
        "refused 20: Is the cap not below the waves in use, and not below those that the edit would need? \
        No. To do: raise the cap, or strike or add another clash first\n";
    assert_eq!(desk.says("- 2 5"), format!("- 2 5: {refused}"));
    assert_eq!(desk.says("cap 1"), format!("cap 1: {refused}"));
    assert_eq!(
        desk.says("cap 0"),
        "cap 0: refused 19: Is the cap from 1 to 24? No. To do: set another\n"
    );
    assert_eq!(desk.says("cap"), "cap 2\n");
    assert!(desk
        .says("cap 3\n- 2 5")
        .starts_with("cap 3\n- 2 5: 5 taken up, 4 moved\n"));
}

/// Texts go here or into a file, whose old text stays where the new one cannot be written.
#[test]
fn texts_into_files() {
    let folder = Folder::new();
    let mut desk = Desk::with(&folder, M8);
    let sheet = folder.path("day.sheet");
    assert_eq!(
        desk.says(&format!("sheet {sheet}")),
        format!("written to {sheet}\n")
    );
    assert_eq!(
        fs::read_to_string(&sheet).expect("it is there"),
        desk.says("sheet")
    );
    desk.says(&format!("- 2 5\nsheet {sheet}"));
    assert_eq!(
        fs::read_to_string(&sheet).expect("it is there"),
        desk.says("sheet")
    );
    let poster = folder.path("day.poster");
    desk.says(&format!("poster {poster}"));
    let page = fs::read_to_string(&poster).expect("it is there");
    assert_eq!(page, desk.says("poster"));
    assert_eq!(
        page.lines().next(),
        Some("A     0    1                            ")
    );
    assert_eq!(page.len(), 50 * 41);
    let full =
        "sheet /dev/full: the file could not be written: No space left on device (os error 28)\n";
    assert_eq!(desk.says("sheet /dev/full"), full);
    let below = format!("{sheet}/x");
    let said = desk.says(&format!("sheet {below}"));
    assert_eq!(
        said,
        format!("sheet {below}: the file could not be written: Not a directory (os error 20)\n")
    );
    assert_eq!(folder.names(), ["day.poster", "day.sheet", "with.list"]);
}

/// A file that is written again may be read and written by the same users as before.
#[test]
fn permissions_stay() {
    let folder = Folder::new();
    let mut desk = Desk::with(&folder, M8);
    let sheet = folder.file("day.sheet", b"");
    for mode in [0o600, 0o644] {
        fs::set_permissions(&sheet, Permissions::from_mode(mode)).expect("it is set");
        desk.says(&format!("sheet {sheet}"));
        let found = fs::metadata(&sheet).expect("it is there").permissions();
        assert_eq!(found.mode() & 0o777, mode);
    }
}

/// A picture is written with and without numbers.
#[test]
fn pictures() {
    let folder = Folder::new();
    let mut desk = Desk::with(&folder, M8);
    let (plain, numbered) = (folder.path("plain.svg"), folder.path("numbered.svg"));
    assert_eq!(
        desk.says(&format!("picture {plain}")),
        format!("written to {plain}\n")
    );
    desk.says(&format!("picture {numbered} numbers"));
    let plan = Plan::read_list(M8.as_bytes()).expect("a list");
    for (file, numbers) in [(plain, false), (numbered, true)] {
        let picture = fs::read_to_string(file).expect("it is there");
        assert_eq!(picture, desk::picture::svg(&plan, None, numbers));
    }
}

/// A list that is refused leaves the present plan, at whatever row.
#[test]
fn refused_lists() {
    let folder = Folder::new();
    let mut desk = Desk::with(&folder, M8);
    let sheet = desk.says("sheet");
    let late = folder.file("late.list", b"N 3\n+ 0 1\n+ 1 0\n");
    let said = desk.says(&format!("load {late}"));
    let why = "row 3: refused 6: Are the two banks free of a clash so far? No. To do: nothing, they clash already";
    assert_eq!(said, format!("load {late}: {why}\n"));
    let long = folder.file("long.list", &b"N 3\n".repeat(15_001));
    let said = desk.says(&format!("load {long}"));
    let why = "refused 9: Has the list, or the journal, at most 60,000 bytes? No. To do: split it";
    assert_eq!(said, format!("load {long}: {why}\n"));
    let missing = folder.path("missing.list");
    let said = desk.says(&format!("load {missing}"));
    let why = "the file could not be read: No such file or directory (os error 2)";
    assert_eq!(said, format!("load {missing}: {why}\n"));
    assert!(desk
        .says("open 1025")
        .starts_with("open 1025: refused 1: Is the bank count at most 1,024?"));
    assert_eq!(desk.says("sheet"), sheet);
}

/// The last row of a list counts with or without a line feed, and so does the last line of the input. Blanks, empty
/// lines and comments do nothing.
#[test]
fn lines() {
    let folder = Folder::new();
    let list = folder.file("open_end.list", b"N 2\n+ 0 1");
    let input = format!("\n   \n# a comment\n  load   {list} \r\n\t#\n+ 0001\t0");
    let said = says(&input);
    let why =
        "refused 6: Are the two banks free of a clash so far? No. To do: nothing, they clash already";
    assert_eq!(
        said,
        format!("banks 2, clashes 1, waves 2, cap 24\n+ 0001 0: {why}\n")
    );
}

/// Lines after `quit` are not read.
#[test]
fn quit() {
    assert_eq!(
        says("open 1\nquit\nsheet\n"),
        "banks 1, clashes 0, waves 1, cap 24\n"
    );
}

/// `help` has a line for each command, with its form in front.
#[test]
fn help() {
    let said = says("help\n");
    let commands =
        "open load + - D K wave clashes sheet poster keep back cap crew within agree doubt \
        journal replay picture why undo help quit";
    let first: Vec<&str> = said
        .lines()
        .filter_map(|line| line.split(' ').next())
        .collect();
    assert_eq!(first.join(" "), commands);
}
