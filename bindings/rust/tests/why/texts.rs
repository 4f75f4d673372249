//! The texts of explanations: marked examples, ranks, many banks that moved, and none.

use crate::edited;
use wave_plan::{Bank, Kind, LastEdit, Plan};

/// An edit of the plan of a list.
fn last_edit(list: &str, kind: Kind, a: u16, b: u16) -> LastEdit {
    let before = Plan::read_list(list.as_bytes()).expect("a list");
    edited(&before, kind, Bank(a), Bank(b)).1
}

fn text(lines: &[&str]) -> String {
    lines.join("\n")
}

#[test]
fn m4() {
    let last = last_edit("N 3\n+ 1 2\n+ 0 1", Kind::Adding, 0, 2);
    assert_eq!(last.moved_lines(), ["0: B to A", "1: A to B", "2: B to C"]);
    let zero = [
        "bank 0 was taken up: the row + 0 2 names it",
        "  wave before: B, the lowest free: A was held by bank 1",
        "  wave now: A, the lowest free: no earlier clashing bank holds it",
    ];
    let one = [
        "bank 1 was taken up: its order towards bank 0 turned over, and they clash",
        "  order before: bank 1 earlier, with 2 clashes to 1",
        "  order now: bank 0 earlier, with 2 clashes each and the smaller number",
        "  and it is later than a clashing bank that moved: 0 from B to A",
        "  wave before: A, the lowest free: no earlier clashing bank held it",
        "  wave now: B, the lowest free: A is held by bank 0",
    ];
    let two = [
        "bank 2 was taken up: the row + 0 2 names it",
        "  and it is later than clashing banks that moved: 0 from B to A, 1 from A to B",
        "  wave before: B, the lowest free: A was held by bank 1",
        "  wave now: C, the lowest free: A is held by bank 0, B by bank 1",
    ];
    assert_eq!(last.why_moved(), text(&[&zero[..], &one, &two].concat()));
    assert_eq!(last.why(Bank(1)), Some(text(&one)));
    assert_eq!(last.why(Bank(3)), None);
}

#[test]
fn m7() {
    let last = last_edit("N 4\n+ 0 1\n+ 1 2\n+ 2 3\n+ 0 3", Kind::Striking, 0, 3);
    let moved = ["1: B to A", "2: A to B", "0: A to B", "3: B to A"];
    assert_eq!(last.moved_lines(), moved);
    let one = [
        "bank 1 was taken up: its order towards bank 0 turned over, and they clash",
        "  order before: bank 0 earlier, with 2 clashes each and the smaller number",
        "  order now: bank 1 earlier, with 2 clashes to 1",
        "  wave before: B, the lowest free: A was held by bank 0",
        "  wave now: A, the lowest free: no earlier clashing bank holds it",
    ];
    let two = [
        "bank 2 was taken up: it is later than a clashing bank that moved: 1 from B to A",
        "  wave before: A, the lowest free: no earlier clashing bank held it",
        "  wave now: B, the lowest free: A is held by bank 1",
    ];
    let zero = [
        "bank 0 was taken up: the row - 0 3 names it",
        "  and it is later than a clashing bank that moved: 1 from B to A",
        "  wave before: A, the lowest free: no earlier clashing bank held it",
        "  wave now: B, the lowest free: A is held by bank 1",
    ];
    let three = [
        "bank 3 was taken up: the row - 0 3 names it",
        "  and it is later than a clashing bank that moved: 2 from A to B",
        "  wave before: B, the lowest free: A was held by bank 0",
        "  wave now: A, the lowest free: no earlier clashing bank holds it",
    ];
    let all = [&one[..], &two, &zero, &three].concat();
    assert_eq!(last.why_moved(), text(&all));
}

#[test]
fn m9() {
    let list = "N 6\n+ 0 4\n+ 0 2\n+ 2 3\n+ 1 3\n+ 1 5\n+ 2 5";
    let last = last_edit(list, Kind::Striking, 2, 5);
    let moved = ["0: B to A", "2: A to B", "3: B to C", "4: A to B"];
    assert_eq!(last.moved_lines(), moved);
    let unnamed = [
        "bank 0 was taken up: its order towards bank 2 turned over, and they clash",
        "  order before: bank 2 earlier, with 3 clashes to 2",
        "  order now: bank 0 earlier, with 2 clashes each and the smaller number",
        "  wave before: B, the lowest free: A was held by bank 2",
        "  wave now: A, the lowest free: no earlier clashing bank holds it",
    ];
    let left_alone = [
        "bank 1 was not taken up, nothing of it changed",
        "  the row - 2 5 does not name it",
        "  it does not clash with bank 2",
        "  its order towards bank 5 did not turn over: bank 1 earlier, before and now",
        "  no earlier clashing bank moved",
        "  wave now: A as before, the lowest free: no earlier clashing bank holds it",
    ];
    let stays = [
        "bank 5 was taken up: the row - 2 5 names it",
        "  wave now: B as before, the lowest free: A is held by bank 1",
    ];
    assert_eq!(last.why(Bank(0)), Some(text(&unnamed)));
    assert_eq!(last.why(Bank(1)), Some(text(&left_alone)));
    assert_eq!(last.why(Bank(5)), Some(text(&stays)));
}

/// Ranks decide between banks 0 and 1, which have as many clashes after the edit.
#[test]
fn ranks() {
    let list = "N 5\nK 0 20\nK 1 10\n+ 0 1\n+ 0 2";
    let last = last_edit(list, Kind::Adding, 1, 3);
    let zero = [
        "bank 0 was taken up: its order towards bank 1 turned over, and they clash",
        "  order before: bank 0 earlier, with 2 clashes to 1",
        "  order now: bank 1 earlier, with 2 clashes each and the smaller rank, 10 to 20",
        "  and it is later than a clashing bank that moved: 1 from B to A",
        "  wave before: A, the lowest free: no earlier clashing bank held it",
        "  wave now: B, the lowest free: A is held by bank 1",
    ];
    let far = [
        "bank 4 was not taken up, nothing of it changed",
        "  the row + 1 3 does not name it",
        "  it clashes with neither of them",
        "  no earlier clashing bank moved",
        "  wave now: A as before, the lowest free: no earlier clashing bank holds it",
    ];
    assert_eq!(last.why(Bank(0)), Some(text(&zero)));
    assert_eq!(last.why(Bank(4)), Some(text(&far)));
}

/// Six banks clash with each other, and bank 5 is the first of them until the edit: then it is later
/// than the five others, which all moved.
#[test]
fn many_movers() {
    let mut list = "N 7\n+ 5 6".to_string();
    for p in 0..6 {
        (0..p).for_each(|q| list += &format!("\n+ {q} {p}"));
    }
    let last = last_edit(&list, Kind::Striking, 6, 5);
    let five = [
        "bank 5 was taken up: the row - 6 5 names it",
        "  and it is later than clashing banks that moved: 0 from B to A, 1 from C to B, 2 from D to C and 2 more",
        "  wave before: A, the lowest free: no earlier clashing bank held it",
        "  wave now: F, the lowest free: A is held by bank 0, B by bank 1, C by bank 2, D by bank 3, E by bank 4",
    ];
    assert_eq!(last.why(Bank(5)), Some(text(&five)));
}

#[test]
fn no_bank_moved() {
    let last = last_edit("N 4\n+ 0 1\n+ 2 3", Kind::Adding, 0, 3);
    assert_eq!(last.edit().moved, []);
    assert_eq!(last.moved_lines(), Vec::<String>::new());
    assert_eq!(last.why_moved(), "no bank moved");
}
