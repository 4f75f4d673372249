//! Lines that are no commands, commands with wrong words, and commands where nothing is open.

use crate::desk_here::{says, Desk};

/// The rows of a list with too few, too many or wrong words.
const ROWS: &str = "+, + 1, + 1 2 3, + x 1, + 1 -2, + 12345 1, -, - 1, - 0 x, D, D x, D 1 2, K, K 1, K 1 10000, K x 1";

/// The other commands with too few, too many or wrong words.
const OTHERS: &str = "open, open x, open 10000, open 1 2, load, load a b, wave, wave x, wave 1 2, clashes, \
    clashes x, sheet a b, poster a b, keep, keep NOON CLOSE, back, back NOON CLOSE, cap x, cap 1 2, crew, crew x, \
    crew 1 2, within, within x, agree, agree a b, doubt, doubt x, doubt 1 2, journal, journal a b, replay, replay a b, \
    picture, picture a b, picture a numbers b, why x, why 1 2, undo 1, help me, quit now";

/// The commands that need a plan.
const ON_A_PLAN: &str = "+ 0 1, - 0 1, D 0, K 0 1, wave 0, clashes 0, sheet, poster, keep NOON, back NOON, cap, cap 3, \
    crew 1, within 1, agree a, doubt 0, picture a, why, why 0, undo";

/// A row of a list gets 11; each other line is told how to write it.
#[test]
fn every_command() {
    let mut desk = Desk::default();
    desk.says("open 3");
    for row in ROWS.split(", ") {
        let why = "refused 11: Is the row one of the four forms? No. To do: correct it: one space between \
            parts, at most four digits";
        assert_eq!(desk.says(row), format!("{row}: {why}\n"));
    }
    for line in OTHERS.split(", ") {
        let first = line.split(' ').next().expect("a word");
        let form = format!("{line}: write it as {first}");
        let said = desk.says(line);
        assert!(
            said.starts_with(&form) && said.lines().count() == 1,
            "{said}"
        );
    }
    assert_eq!(desk.says("sheet"), "WAVES 1\nA 0 1 2\nTOTAL 3 0\n");
}

/// A line that is not known, in letters or in bytes, is told so in one line that names `help`.
#[test]
fn unknown_lines() {
    assert_eq!(says("fly 3\n"), "fly 3: no such command; help lists them\n");
    assert_eq!(
        says("OPEN 3\n"),
        "OPEN 3: no such command; help lists them\n"
    );
    let mut out = Vec::new();
    let mut screen = desk::screen::Screen::new(&mut out, false);
    desk::run(&mut &b"\xFF\xFE\nopen 1\n"[..], &mut screen, None).expect("it is written");
    let said = "this line is no text in UTF-8; help lists the commands\nbanks 1, clashes 0, waves 1, cap 24\n";
    assert_eq!(String::from_utf8_lossy(&out), said);
}

/// What needs a plan says so where none is open.
#[test]
fn nothing_open() {
    for line in ON_A_PLAN.split(", ") {
        let none = "no plan is open; open N, load LIST, replay FILE or journal FILE opens one";
        assert_eq!(says(line), format!("{line}: {none}\n"));
    }
}
