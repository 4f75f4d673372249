//! Journals on disk: started, gone on with, ended, started anew, and refused.

use crate::desk_here::{Desk, M8};
use crate::support::Folder;
use independent::graph::Graph;
use independent::journal::{field_bytes, journal_of, started, Entry, Field, Form};
use independent::reach::Edit;
use std::fs;

/// The field of an edit.
fn edit(edit: Edit, a: u16, b: u16) -> Field {
    Field::Edit(Entry { edit, a, b })
}

/// A journal of three banks: its bytes are the paper's, each edit is there once it is answered, and it is gone on with.
#[test]
fn recorded() {
    let folder = Folder::new();
    let file = folder.path("day.journal");
    let mut desk = Desk::default();
    desk.says("open 3");
    let on = format!("{file}: fields 1 to 1 written; each edit is recorded from here on\n");
    assert_eq!(desk.says(&format!("journal {file}")), on);
    let mut bytes = vec![0x4E, 2, 0, 3, 0];
    assert_eq!(fs::read(&file).expect("it is there"), bytes);
    desk.says("+ 1 2");
    bytes.extend([0x2B, 8, 0, 1, 0, 0, 0, 1, 0, 2, 0]);
    assert_eq!(fs::read(&file).expect("it is there"), bytes);
    desk.says("+ 2 2\n- 1 2\nundo");
    bytes.extend([0x2D, 8, 0, 2, 0, 0, 0, 1, 0, 2, 0]);
    bytes.extend([0x2B, 8, 0, 3, 0, 0, 0, 1, 0, 2, 0]);
    assert_eq!(fs::read(&file).expect("it is there"), bytes);
    assert_eq!(
        desk.says(&format!("journal {file}")),
        format!("journal {file}: it is on already\n")
    );
    drop(desk);
    let said = Desk::default().says(&format!("journal {file}\nsheet\n+ 0 1"));
    let replayed = format!(
        "{file}: fields 1 to 4 replayed, bytes left over: 0; each edit is recorded from here on\n"
    );
    let sheet = "banks 3, clashes 1, waves 2, cap 24\nWAVES 2\nA 0 1\nB 2\nTOTAL 3 1\n";
    let edited = "+ 0 1: 2 taken up, 1 moved\n0: A to B\n";
    assert_eq!(said, format!("{replayed}{sheet}{edited}"));
    bytes.extend([0x2B, 8, 0, 4, 0, 0, 0, 0, 0, 1, 0]);
    assert_eq!(fs::read(&file).expect("it is there"), bytes);
    assert_eq!(folder.names(), ["day.journal"]);
}

/// A journal started on a plan with ranks and clashes, and one of entries without numbers, which is continued without.
#[test]
fn started_and_old() {
    let folder = Folder::new();
    let mut desk = Desk::with(&folder, "N 4\nK 2 7\n+ 3 0\n+ 2 3\n");
    let file = folder.path("day.journal");
    let said = desk.says(&format!("journal {file}"));
    assert!(said.contains("fields 1 to 4 written"), "{said}");
    let graph = Graph::of(4, [(0, 3), (2, 3)]).ranked(2, 7);
    assert_eq!(fs::read(&file).expect("it is there"), started(&graph));
    let fields = [edit(Edit::Add, 0, 1), edit(Edit::Add, 1, 2)];
    let old = journal_of(Form::Plain, 3, &fields);
    let old_file = folder.file("old.journal", &old);
    let said = desk.says(&format!("journal {old_file}"));
    let expected = format!(
        "journal {file} ends here\nthe plan that was open gives way\n\
        {old_file}: fields 1 to 3 replayed, bytes left over: 0; each edit is recorded from here on\n\
        banks 3, clashes 2, waves 2, cap 24\n"
    );
    assert_eq!(said, expected);
    desk.says("- 0 1");
    let field = field_bytes(Form::Plain, 3, edit(Edit::Strike, 0, 1));
    assert_eq!(
        fs::read(&old_file).expect("it is there"),
        [old, field].concat()
    );
}

/// A rank before the first edit starts the journal anew; after one it is refused, also where no clash is left, and in
/// a journal gone on with.
#[test]
fn ranks() {
    let folder = Folder::new();
    let file = folder.path("day.journal");
    let mut desk = Desk::default();
    desk.says(&format!("open 3\njournal {file}\nK 2 5\nK 1 3"));
    let ranked = Graph::empty(3).ranked(2, 5).ranked(1, 3);
    assert_eq!(fs::read(&file).expect("it is there"), started(&ranked));
    desk.says("K 1 0");
    let ranked = Graph::empty(3).ranked(2, 5);
    assert_eq!(fs::read(&file).expect("it is there"), started(&ranked));
    drop(desk);
    let mut desk = Desk::default();
    desk.says(&format!("journal {file}\nK 0 9\n+ 0 1\n- 0 1"));
    let fields = [
        Field::Rank { bank: 0, rank: 9 },
        Field::Rank { bank: 2, rank: 5 },
        edit(Edit::Add, 0, 1),
        edit(Edit::Strike, 0, 1),
    ];
    let journal = journal_of(Form::Numbered, 3, &fields);
    assert_eq!(fs::read(&file).expect("it is there"), journal);
    assert!(desk.says("K 0 1").starts_with("K 0 1: refused 18: "));
    drop(desk);
    for open in ["journal", "replay"] {
        let mut desk = Desk::default();
        let said = desk.says(&format!("{open} {file}\nK 0 1"));
        assert!(said.contains("K 0 1: refused 18: "), "{said}");
    }
    assert_eq!(fs::read(&file).expect("it is there"), journal);
}

/// Another plan ends the journal, and says so; what is refused does not.
#[test]
fn ended() {
    let folder = Folder::new();
    let list = folder.file("six.list", M8.as_bytes());
    let other = folder.file("other.journal", &started(&Graph::of(3, [(0, 1)])));
    for (at, line) in [
        "open 3",
        &format!("load {list}"),
        &format!("replay {other}"),
        "back NOON",
    ]
    .iter()
    .enumerate()
    {
        let file = folder.path(&format!("{at}.journal"));
        let mut desk = Desk::default();
        desk.says(&format!("open 3\nkeep NOON\njournal {file}\n+ 0 1"));
        let recorded = fs::read(&file).expect("it is there");
        desk.says("open 1025\nload missing.list\nreplay missing.journal\nback CLOSE\nundo");
        assert_eq!(
            fs::read(&file).expect("it is there").len(),
            recorded.len() + 11
        );
        let recorded = fs::read(&file).expect("it is there");
        let said = desk.says(line);
        let ends = format!("journal {file} ends here; edits from here on are not recorded\n");
        assert!(said.contains(&ends), "{said}");
        desk.says("+ 0 2\n+ 1 2");
        assert_eq!(fs::read(&file).expect("it is there"), recorded);
    }
}

/// `replay` says which fields there were, and leaves the file as it is.
#[test]
fn only_replayed() {
    let folder = Folder::new();
    let journal = started(&Graph::of(3, [(0, 1), (0, 2)]));
    let file = folder.file("day.journal", &journal[..journal.len() - 4]);
    let mut desk = Desk::default();
    let said = desk.says(&format!("replay {file}"));
    let fields = format!("{file}: fields 1 to 2 replayed, bytes left over: 7\n");
    assert_eq!(
        said,
        format!("{fields}banks 3, clashes 1, waves 2, cap 24\n")
    );
    desk.says("+ 0 2");
    assert_eq!(
        fs::read(&file).expect("it is there"),
        &journal[..journal.len() - 4]
    );
}

/// A journal with a refused field is not opened: plan, journal and file stay.
#[test]
fn refused() {
    let folder = Folder::new();
    let fields = [edit(Edit::Add, 0, 1), edit(Edit::Add, 1, 0)];
    let twice = journal_of(Form::Numbered, 3, &fields);
    let clash = "field 3: refused 6: Are the two banks free of a clash so far? No. To do: nothing, they clash already";
    let first = "field 1: refused 13: Is the journal within the slice, and its first field whole and of the \
        stated form? \
        No. To do: start a new journal";
    let mut misnumbered = journal_of(Form::Numbered, 3, &fields);
    misnumbered[19] = 7;
    let number = "field 3: refused 21: Is the entry's number one above the last, the first being 1? No. To do: \
        cut the journal before that field";
    let long = "refused 9: Has the list, or the journal, at most 60,000 bytes? No. To do: split it";
    let cases = [
        (twice, clash),
        (b"N 3\n+ 0 1\n".to_vec(), first),
        (vec![0x4E, 2], first),
        (misnumbered, number),
        (vec![0x4E; 60_001], long),
    ];
    let on = folder.path("on.journal");
    let mut desk = Desk::default();
    desk.says(&format!("open 4\njournal {on}\n+ 2 3"));
    for (bytes, why) in cases {
        let file = folder.file("bad.journal", &bytes);
        for command in ["journal", "replay"] {
            let said = desk.says(&format!("{command} {file}"));
            assert_eq!(said, format!("{command} {file}: {why}\n"));
        }
        assert_eq!(fs::read(&file).expect("it is there"), bytes);
    }
    assert_eq!(desk.says("clashes 2"), "3\n");
    let length = fs::read(&on).expect("it is there").len();
    desk.says("+ 0 1");
    assert_eq!(fs::read(&on).expect("it is there").len(), length + 11);
}

/// A plan that is too large for a journal, and no plan at all: no file is left behind.
#[test]
fn not_started() {
    let folder = Folder::new();
    let file = folder.path("day.journal");
    let mut desk = Desk::default();
    let none = "there is no journal yet: no plan is open; open N, load LIST, replay FILE or journal FILE opens one";
    assert_eq!(
        desk.says(&format!("journal {file}")),
        format!("journal {file}: {none}\n")
    );
    let empty = folder.file("empty.journal", b"");
    let none = "no plan is open; open N, load LIST, replay FILE or journal FILE opens one";
    assert_eq!(
        desk.says(&format!("journal {empty}")),
        format!("journal {empty}: {none}\n")
    );
    let rows = (0..1024).flat_map(|a| (1..7).map(move |d| format!("+ {a} {}\n", (a + d) % 1024)));
    let mut desk = Desk::with(&folder, "N 1024\n");
    for row in rows {
        desk.says(&row);
    }
    let said = desk.says(&format!("journal {file}"));
    assert!(
        said.starts_with(&format!("journal {file}: refused 15: ")),
        "{said}"
    );
    assert_eq!(folder.names(), ["empty.journal", "with.list"]);
    let on = desk.says(&format!("open 1\njournal {empty}"));
    assert!(on.contains("fields 1 to 1 written"), "{on}");
}

/// A text does not go over the journal that is on, and a journal that was moved away or cut is not written to.
#[test]
fn journal_kept_safe() {
    let folder = Folder::new();
    let file = folder.path("day.journal");
    let mut desk = Desk::default();
    desk.says(&format!("open 3\njournal {file}\n+ 0 1"));
    let journal = fs::read(&file).expect("it is there");
    let over = desk.says(&format!("sheet {file}"));
    assert_eq!(
        over,
        format!("sheet {file}: the journal that is on is in that file\n")
    );
    fs::rename(&file, folder.path("away.journal")).expect("it is moved");
    let lost = format!(
        "+ 1 2: not made, {file} could not be written: it was moved, removed or cut meanwhile\n"
    );
    assert_eq!(desk.says("+ 1 2"), lost);
    assert_eq!(desk.says("clashes 2"), "none\n");
    let away = folder.path("away.journal");
    assert_eq!(fs::read(&away).expect("it is there"), journal);
    fs::write(&away, &journal[..7]).expect("it is cut");
    fs::rename(&away, &file).expect("it is moved back");
    assert_eq!(desk.says("+ 1 2"), lost);
    assert_eq!(fs::read(&file).expect("it is there"), &journal[..7]);
    fs::write(&file, &journal).expect("it is as it was");
    let made = "+ 1 2: 3 taken up, 3 moved\n1: B to A\n0: A to B\n2: A to B\n";
    assert_eq!(desk.says("+ 1 2"), made);
    assert_eq!(
        fs::read(&file).expect("it is there").len(),
        journal.len() + 11
    );
}
