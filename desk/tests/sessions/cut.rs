//! A journal cut at each byte, as by a crash while it was written, and gone on with.

use crate::desk_here::Desk;
use crate::support::{sheet, Folder};
use independent::graph::Graph;
use independent::journal::{field_bytes, journal_of, Entry, Field, Form, FIRST_BYTES, FORMS};
use independent::memory::Memory;
use independent::plan::MAX_BANKS;
use independent::reach::Edit;
use std::fs;

/// Ranks and edits of seven banks. No two of them make or strike the clash of 5 and 6.
fn fields() -> Vec<Field> {
    let rank = |bank, rank| Field::Rank { bank, rank };
    let edit = |edit, a, b| Field::Edit(Entry { edit, a, b });
    let add = |a, b| edit(Edit::Add, a, b);
    vec![
        rank(3, 70),
        rank(0, 9999),
        add(0, 4),
        add(2, 0),
        add(2, 3),
        add(1, 3),
        add(1, 5),
        add(2, 5),
        edit(Edit::Strike, 5, 2),
        add(6, 1),
    ]
}

/// The graph that the model replays, and how many bytes it leaves over.
fn replayed(journal: &[u8]) -> (Graph, usize) {
    let mut memory = Memory::filled(MAX_BANKS, 0);
    let answer = memory.replay(journal);
    assert_eq!(answer.number, 0);
    (memory.held_graph().expect("a plan"), answer.left)
}

#[test]
fn cut_at_each_byte() {
    let folder = Folder::new();
    for form in FORMS {
        let journal = journal_of(form, 7, &fields());
        for length in FIRST_BYTES..=journal.len() {
            reopened(&folder, form, &journal[..length]);
        }
    }
}

/// The file is cut after its last whole field, an edit is written there, and both replay.
fn reopened(folder: &Folder, form: Form, journal: &[u8]) {
    let (graph, left) = replayed(journal);
    let whole = &journal[..journal.len() - left];
    let count = 1 + (whole.len() - FIRST_BYTES) / form.entry_bytes();
    let file = folder.file("cut.journal", journal);
    let mut desk = Desk::default();
    let said = desk.says(&format!("journal {file}"));
    let cut = if left > 0 { " and cut off" } else { "" };
    let line = format!(
        "{file}: fields 1 to {count} replayed, bytes left over: {left}{cut}; each edit is recorded from here on\n"
    );
    assert!(said.starts_with(&line), "{said}");
    assert_eq!(desk.says("sheet"), sheet(&graph));
    assert_eq!(fs::read(&file).expect("it is there"), whole);
    desk.says("+ 5 6");
    drop(desk);
    let edit = Edit::Add;
    // A journal without entries goes on in the new form.
    let form = if count == 1 { Form::Numbered } else { form };
    let field = field_bytes(form, count as u32, Entry { edit, a: 5, b: 6 });
    assert_eq!(
        fs::read(&file).expect("it is there"),
        [whole, &field].concat()
    );
    let said = Desk::default().says(&format!("journal {file}\nsheet"));
    assert!(said.ends_with(&sheet(&graph.with(5, 6))), "{said}");
}

/// Within its first field there is no journal to go on with, and the file stays.
#[test]
fn cut_in_the_first_field() {
    let folder = Folder::new();
    let journal = journal_of(Form::Numbered, 7, &fields());
    for length in 1..FIRST_BYTES {
        let file = folder.file("cut.journal", &journal[..length]);
        let said = Desk::default().says(&format!("open 7\njournal {file}"));
        assert!(
            said.contains(&format!("journal {file}: field 1: refused 13: ")),
            "{said}"
        );
        assert_eq!(fs::read(&file).expect("it is there"), &journal[..length]);
    }
}
