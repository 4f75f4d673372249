//! A desk in this process.

use crate::support::Folder;
use desk::screen::Screen;
use desk::session::Session;

/// The clashes of M8, on six banks.
pub const M8: &str = "N 6\n+ 0 4\n+ 0 2\n+ 2 3\n+ 1 3\n+ 1 5\n+ 2 5\n";

/// A desk in this process.
#[derive(Default)]
pub struct Desk(Session);

impl Desk {
    /// What it answers to lines.
    pub fn says(&mut self, lines: &str) -> String {
        let mut out = Vec::new();
        let mut screen = Screen::new(&mut out, false);
        for line in lines.lines() {
            let words: Vec<&str> = line.split(' ').collect();
            self.0.obey(&words, &mut screen).expect("it is written");
        }
        String::from_utf8(out).expect("a text")
    }

    /// A desk that has the plan of a list.
    pub fn with(folder: &Folder, list: &str) -> Desk {
        let mut desk = Desk::default();
        let list = folder.file("with.list", list.as_bytes());
        let said = desk.says(&format!("load {list}"));
        assert!(said.starts_with("banks "), "{said}");
        desk
    }
}

/// What a desk answers to lines, from its start to their end.
pub fn says(lines: &str) -> String {
    let mut out = Vec::new();
    let mut screen = Screen::new(&mut out, false);
    desk::run(&mut lines.as_bytes(), &mut screen, None).expect("it is written");
    String::from_utf8(out).expect("a text")
}
