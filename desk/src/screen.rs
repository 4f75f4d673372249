//! Where answers go. Each is written whole and flushed, so that a reader at the other end has it before the next line
//! is read.

use std::io::{self, Write};

/// The codes of a terminal for bold, for red, and for neither.
const BOLD: &str = "\x1b[1m";
const RED: &str = "\x1b[31m";
const NORMAL: &str = "\x1b[0m";

/// The prompt of a terminal.
const PROMPT: &str = "> ";

/// An output, which is a terminal or is not.
pub struct Screen<'a> {
    out: &'a mut dyn Write,
    terminal: bool,
}

impl<'a> Screen<'a> {
    pub fn new(out: &'a mut dyn Write, terminal: bool) -> Screen<'a> {
        Screen { out, terminal }
    }

    /// The prompt, on a terminal.
    pub fn prompt(&mut self) -> io::Result<()> {
        if self.terminal {
            self.out.write_all(PROMPT.as_bytes())?;
        }
        self.out.flush()
    }

    /// The end of the line with the prompt at which the input ended.
    pub fn end(&mut self) -> io::Result<()> {
        if self.terminal {
            self.out.write_all(b"\n")?;
        }
        self.out.flush()
    }

    /// Whole lines.
    pub fn say(&mut self, lines: &str) -> io::Result<()> {
        self.out.write_all(lines.as_bytes())?;
        self.out.flush()
    }

    /// What an edit did: a line in bold, and further lines.
    pub fn edited(&mut self, line: &str, further: &[String]) -> io::Result<()> {
        let further: String = further.iter().map(|line| format!("{line}\n")).collect();
        let text = format!("{}\n{further}", self.coloured(BOLD, line));
        self.say(&text)
    }

    /// Why something was not done, in red.
    pub fn refuse(&mut self, text: &str) -> io::Result<()> {
        let text = format!("{}\n", self.coloured(RED, text.trim_end()));
        self.say(&text)
    }

    fn coloured(&self, colour: &str, text: &str) -> String {
        if self.terminal {
            format!("{colour}{text}{NORMAL}")
        } else {
            text.to_string()
        }
    }
}
