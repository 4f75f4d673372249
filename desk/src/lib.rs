//! The desk: a plan over the safe wrapper, a line at a time. It decides nothing about waves itself.
//!
//! - `help`: the commands, how each is written and what it does.
//! - `parse`: a line into a command.
//! - `session`: what is open, and what a command answers. `plans`: where plans come from and go to. `edits`: edits,
//!   ranks and undoing.
//! - `journal`, `disk`: a journal on disk; files.
//! - `text`, `picture`: the lines and the picture of a plan.
//! - `screen`: where answers go. `trouble`: why a command was not done.

pub mod disk;
mod edits;
pub mod help;
pub mod journal;
pub mod parse;
pub mod picture;
mod plans;
pub mod screen;
pub mod session;
pub mod text;
pub mod trouble;

use screen::Screen;
use session::{Flow, Session};
use std::io::{self, BufRead};

/// Answers each line of the input, until it ends or a line says so. A journal that is named comes first.
pub fn run(
    input: &mut dyn BufRead,
    screen: &mut Screen<'_>,
    journal: Option<&str>,
) -> io::Result<()> {
    let mut session = Session::default();
    if let Some(journal) = journal {
        session.obey(&["journal", journal], screen)?;
    }
    loop {
        screen.prompt()?;
        let mut line = Vec::new();
        if input.read_until(b'\n', &mut line)? == 0 {
            return screen.end();
        }
        if answer(&mut session, &line, screen)? == Flow::End {
            return Ok(());
        }
    }
}

/// Answers a line, which is split into words at blanks.
fn answer(session: &mut Session, line: &[u8], screen: &mut Screen<'_>) -> io::Result<Flow> {
    match std::str::from_utf8(line) {
        Ok(line) => {
            let words: Vec<&str> = line.split_ascii_whitespace().collect();
            session.obey(&words, screen)
        }
        Err(_) => {
            screen.refuse("this line is no text in UTF-8; help lists the commands")?;
            Ok(Flow::On)
        }
    }
}
