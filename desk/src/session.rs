//! What is open at the desk, and what each command answers.

use crate::disk;
use crate::help;
use crate::journal::Journal;
use crate::parse::{parse, Command, Question, Text};
use crate::picture;
use crate::screen::Screen;
use crate::text;
use crate::trouble::Trouble;
use std::collections::BTreeMap;
use std::io;
use std::path::Path;
use wave_plan::{Bank, Kind, LastEdit, Plan, Refusal, Shelf};

/// Whether another line is to be read.
#[derive(Clone, Copy, Debug, PartialEq, Eq)]
pub enum Flow {
    On,
    End,
}

/// The present plan.
pub(crate) struct Present {
    pub plan: Plan,
    /// The last edit since the plan came here.
    pub last: Option<LastEdit>,
    /// The edits since then that are not undone.
    pub made: Vec<(Kind, Bank, Bank)>,
    /// Whether an edit was made since then, or stands in the journal that the plan came from.
    pub begun: bool,
}

impl Present {
    pub fn new(plan: Plan, begun: bool) -> Present {
        Present {
            plan,
            last: None,
            made: Vec::new(),
            begun,
        }
    }
}

/// What is open at the desk.
#[derive(Default)]
pub struct Session {
    pub(crate) present: Option<Present>,
    pub(crate) journal: Option<Journal>,
    /// The kept plans, by their number of banks.
    pub(crate) shelves: BTreeMap<u16, Shelf>,
}

impl Session {
    /// Answers the words of a line.
    pub fn obey(&mut self, words: &[&str], screen: &mut Screen<'_>) -> io::Result<Flow> {
        let done = match parse(words) {
            Ok(None) => Ok(()),
            Ok(Some(Command::Quit)) => return Ok(Flow::End),
            Ok(Some(command)) => self.answer(command, screen),
            Err(misread) => Err(Trouble::Said(misread.to_string())),
        };
        match done {
            Ok(()) => {}
            Err(Trouble::Output(error)) => return Err(error),
            Err(Trouble::Program(lines)) => screen.refuse(&lines)?,
            Err(trouble) => screen.refuse(&format!("{}: {trouble}", words.join(" ")))?,
        }
        Ok(Flow::On)
    }

    fn answer(&mut self, command: Command, screen: &mut Screen<'_>) -> Result<(), Trouble> {
        match command {
            Command::Open(n) => self.open(n, screen),
            Command::Load(list) => self.load(&list, screen),
            Command::Replay(file) => self.replay(&file, screen),
            Command::Journal(file) => self.record_in(&file, screen),
            Command::Keep(name) => self.keep(name, screen),
            Command::Back(name) => self.back(name, screen),
            Command::Edit(kind, a, b) => self.edit(kind, a, b, screen),
            Command::StrikeAll(b) => self.strike_all(b, screen),
            Command::Rank(b, rank) => self.rank(b, rank, screen),
            Command::Undo => self.undo(screen),
            Command::Cap(cap) => {
                self.present()?.plan.set_cap(cap)?;
                Ok(screen.say(&self.told(Question::Cap)?)?)
            }
            Command::Ask(question) => Ok(screen.say(&self.told(question)?)?),
            Command::Give(text, file) => self.give(text, file.as_deref(), screen),
            Command::Help => Ok(screen.say(&help::lines())?),
            Command::Quit => Ok(()),
        }
    }

    /// The lines of what is asked of the present plan.
    fn told(&mut self, question: Question) -> Result<String, Trouble> {
        let present = self.present()?;
        let plan = &mut present.plan;
        match question {
            Question::Wave(b) => Ok(format!("{}\n", plan.wave_of(b)?.letter())),
            Question::Clashes(b) => Ok(text::banks(&plan.clashes_of(b)?)),
            Question::Cap => Ok(format!("cap {}\n", plan.cap())),
            Question::Crew(couriers) => text::crew(plan, couriers),
            Question::Within(limit) => text::within(plan, limit),
            Question::Doubt(b) => text::doubt(plan, b),
            Question::Agree(sheet) => {
                let sheet = disk::read_file(&sheet).map_err(|error| Trouble::unread(&error))?;
                text::agree(plan, &sheet)
            }
            Question::Why(b) => {
                let last = present
                    .last
                    .as_ref()
                    .ok_or_else(|| Trouble::no_edit("explain"))?;
                let why = match b {
                    Some(b) => last.why(b).ok_or(Refusal::NoSuchBank)?,
                    None => last.why_moved(),
                };
                Ok(format!("{why}\n"))
            }
        }
    }

    /// Gives a text of the present plan, here or into a file. The file of the journal that is on is not written over.
    fn give(
        &mut self,
        text: Text,
        file: Option<&Path>,
        screen: &mut Screen<'_>,
    ) -> Result<(), Trouble> {
        let Present { plan, last, .. } = self.present()?;
        let text = match text {
            Text::Sheet => plan.sheet()?,
            Text::Poster => plan.poster()?,
            Text::Picture { numbers } => picture::svg(plan, last.as_ref(), numbers),
        };
        let Some(file) = file else {
            return Ok(screen.say(&text)?);
        };
        if self.records_in(file) {
            return Err(Trouble::said("the journal that is on is in that file"));
        }
        disk::write_text(file, &text)
            .map_err(|error| Trouble::file("the file could not be written", &error))?;
        Ok(screen.say(&format!("written to {}\n", file.display()))?)
    }

    /// The present plan, if there is one.
    pub(crate) fn present(&mut self) -> Result<&mut Present, Trouble> {
        self.present.as_mut().ok_or_else(Trouble::no_plan)
    }

    /// Whether the journal that is on is in the file at a path.
    pub(crate) fn records_in(&self, file: &Path) -> bool {
        self.journal
            .as_ref()
            .is_some_and(|journal| journal.is_at(file))
    }
}
