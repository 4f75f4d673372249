//! A line into a command.

use crate::help;
use std::fmt;
use std::path::PathBuf;
use wave_plan::{Bank, Kind, Name, Refusal, Refused};

/// What a line asks for.
#[derive(Clone, Debug, PartialEq, Eq)]
pub enum Command {
    Open(u16),
    Load(PathBuf),
    Replay(PathBuf),
    Journal(PathBuf),
    Keep(Name),
    Back(Name),
    Edit(Kind, Bank, Bank),
    StrikeAll(Bank),
    Rank(Bank, u16),
    Cap(u16),
    Undo,
    Ask(Question),
    /// A text of the plan, here or into a file.
    Give(Text, Option<PathBuf>),
    Help,
    Quit,
}

/// What is asked of the present plan.
#[derive(Clone, Debug, PartialEq, Eq)]
pub enum Question {
    Wave(Bank),
    Clashes(Bank),
    Cap,
    Crew(u16),
    Within(u16),
    Agree(PathBuf),
    Doubt(Bank),
    Why(Option<Bank>),
}

/// The texts of a plan.
#[derive(Clone, Copy, Debug, PartialEq, Eq)]
pub enum Text {
    Sheet,
    Poster,
    Picture { numbers: bool },
}

/// Why a line is no command.
#[derive(Clone, Copy, Debug, PartialEq, Eq)]
pub enum Misread {
    /// Its first word is none of a command.
    Unknown,
    /// Its other words are not those of this command.
    Form {
        form: &'static str,
        does: &'static str,
    },
    /// It is refused by a number: 11 for a row of a list, 16 for a name.
    Refused(Refusal),
}

impl fmt::Display for Misread {
    fn fmt(&self, f: &mut fmt::Formatter<'_>) -> fmt::Result {
        match *self {
            Misread::Unknown => write!(f, "no such command; help lists them"),
            Misread::Form { form, does } => write!(f, "write it as {form}: {does}"),
            Misread::Refused(refusal) => Refused { refusal, place: 0 }.fmt(f),
        }
    }
}

/// The command of the words of a line; none if there are no words, or the line is a comment.
pub fn parse(words: &[&str]) -> Result<Option<Command>, Misread> {
    match words {
        [] => Ok(None),
        [first, ..] if first.starts_with('#') => Ok(None),
        ["keep", word] => Ok(Some(Command::Keep(name(word)?))),
        ["back", word] => Ok(Some(Command::Back(name(word)?))),
        [first, ..] => command(words).map(Some).ok_or_else(|| misread(first)),
    }
}

/// The command of these words, if they have the form of one.
fn command(words: &[&str]) -> Option<Command> {
    Some(match *words {
        ["open", n] => Command::Open(number(n)?),
        ["load", list] => Command::Load(list.into()),
        ["replay", file] => Command::Replay(file.into()),
        ["journal", file] => Command::Journal(file.into()),
        ["+", a, b] => Command::Edit(Kind::Adding, bank(a)?, bank(b)?),
        ["-", a, b] => Command::Edit(Kind::Striking, bank(a)?, bank(b)?),
        ["D", b] => Command::StrikeAll(bank(b)?),
        ["K", b, rank] => Command::Rank(bank(b)?, number(rank)?),
        ["cap", cap] => Command::Cap(number(cap)?),
        ["undo"] => Command::Undo,
        ["sheet"] => Command::Give(Text::Sheet, None),
        ["sheet", file] => Command::Give(Text::Sheet, Some(file.into())),
        ["poster"] => Command::Give(Text::Poster, None),
        ["poster", file] => Command::Give(Text::Poster, Some(file.into())),
        ["picture", file] => picture(file, false),
        ["picture", file, "numbers"] => picture(file, true),
        ["help"] => Command::Help,
        ["quit"] => Command::Quit,
        _ => Command::Ask(question(words)?),
    })
}

fn picture(file: &str, numbers: bool) -> Command {
    Command::Give(Text::Picture { numbers }, Some(file.into()))
}

/// The question of these words, if they have the form of one.
fn question(words: &[&str]) -> Option<Question> {
    Some(match *words {
        ["wave", b] => Question::Wave(bank(b)?),
        ["clashes", b] => Question::Clashes(bank(b)?),
        ["cap"] => Question::Cap,
        ["crew", couriers] => Question::Crew(number(couriers)?),
        ["within", limit] => Question::Within(number(limit)?),
        ["agree", sheet] => Question::Agree(sheet.into()),
        ["doubt", b] => Question::Doubt(bank(b)?),
        ["why"] => Question::Why(None),
        ["why", b] => Question::Why(Some(bank(b)?)),
        _ => return None,
    })
}

/// What is wrong with a line of this first word that has the form of no command. The rows of a list have a number for
/// it.
fn misread(first: &str) -> Misread {
    match (first, help::entry(first)) {
        ("+" | "-" | "D" | "K", _) => Misread::Refused(Refusal::UnreadableRow),
        (_, Some(entry)) => Misread::Form {
            form: entry.form,
            does: entry.does,
        },
        (_, None) => Misread::Unknown,
    }
}

/// A number: 1 to 4 digits, as in a list.
fn number(word: &str) -> Option<u16> {
    let digits = (1..=4).contains(&word.len()) && word.bytes().all(|byte| byte.is_ascii_digit());
    if digits {
        word.parse().ok()
    } else {
        None
    }
}

fn bank(word: &str) -> Option<Bank> {
    number(word).map(Bank)
}

/// A name of a kept plan, in capitals or not.
fn name(word: &str) -> Result<Name, Misread> {
    match word.to_ascii_uppercase().as_str() {
        "MORNING" => Ok(Name::Morning),
        "NOON" => Ok(Name::Noon),
        "CLOSE" => Ok(Name::Close),
        _ => Err(Misread::Refused(Refusal::UnknownName)),
    }
}
