//! Why a command was not done.

use std::fmt;
use std::io;
use wave_plan::{Refusal, Refused};

/// Why a command was not done.
#[derive(Debug)]
pub enum Trouble {
    /// A call refused it.
    Refused(Refused),
    /// Another reason, in words.
    Said(String),
    /// The lines that a program prints for a refusal, which name what was asked themselves.
    Program(String),
    /// The answer could not be written.
    Output(io::Error),
}

impl Trouble {
    /// The same, of a part of a command.
    pub fn of(self, part: &str) -> Trouble {
        match self {
            Trouble::Output(error) => Trouble::Output(error),
            trouble => Trouble::Said(format!("{part}: {trouble}")),
        }
    }

    /// A refusal of a file's row or field.
    pub fn at(part: &str, refused: Refused) -> Trouble {
        let bare = Trouble::from(refused.refusal);
        match refused.place {
            0 => bare,
            place => bare.of(&format!("{part} {place}")),
        }
    }

    pub fn said(words: &str) -> Trouble {
        Trouble::Said(words.to_string())
    }

    /// There is no present plan.
    pub fn no_plan() -> Trouble {
        Trouble::said("no plan is open; open N, load LIST, replay FILE or journal FILE opens one")
    }

    /// There is no edit to do that to.
    pub fn no_edit(to: &str) -> Trouble {
        let since = "since the plan was opened, loaded, replayed or came back";
        Trouble::Said(format!("there is no edit to {to} {since}"))
    }

    /// A file that could not be used, and the system's reason.
    pub fn file(what: &str, error: &io::Error) -> Trouble {
        Trouble::Said(format!("{what}: {error}"))
    }

    pub fn unread(error: &io::Error) -> Trouble {
        Trouble::file("the file could not be read", error)
    }
}

impl From<Refused> for Trouble {
    fn from(refused: Refused) -> Trouble {
        Trouble::Refused(refused)
    }
}

impl From<Refusal> for Trouble {
    fn from(refusal: Refusal) -> Trouble {
        Trouble::Refused(Refused { refusal, place: 0 })
    }
}

impl From<io::Error> for Trouble {
    fn from(error: io::Error) -> Trouble {
        Trouble::Output(error)
    }
}

impl fmt::Display for Trouble {
    fn fmt(&self, f: &mut fmt::Formatter<'_>) -> fmt::Result {
        match self {
            Trouble::Refused(refused) => refused.fmt(f),
            Trouble::Said(text) | Trouble::Program(text) => f.write_str(text),
            Trouble::Output(error) => error.fmt(f),
        }
    }
}
