//! The sheet's text, the calls that write a text of the plan, and the outputs of the programs.

use crate::graph::{number_of_waves, Wave};
use crate::memory::Memory;
use crate::plan::MAX_BANKS;
use crate::refusals::*;

/// The wave letters: A to Z without I and O.
pub const LETTERS: &str = "ABCDEFGHJKLMNPQRSTUVWXYZ";

/// A text made of the waves by bank number and the number of clashes.
pub(crate) type Text = fn(&[Wave], usize) -> String;

/// The answer to a call that writes a text: the number and the text's length.
#[derive(Clone, Copy, Debug, PartialEq, Eq)]
pub struct TextAnswer {
    pub number: u16,
    pub length: usize,
}

/// The sheet of the waves by bank number and the number of clashes.
pub fn sheet_text(waves: &[Wave], clashes: usize) -> String {
    let k = number_of_waves(waves);
    let lines = LETTERS.chars().take(k).enumerate();
    let lines: String = lines
        .map(|(w, letter)| wave_line(letter, w, waves))
        .collect();
    format!("WAVES {k}\n{lines}{}\n", foot(waves, clashes))
}

/// The foot, without its line feed: the banks and the clashes.
pub(crate) fn foot(waves: &[Wave], clashes: usize) -> String {
    format!("TOTAL {} {clashes}", waves.len())
}

/// The line of wave w: its letter and its banks ascending, one space before each.
fn wave_line(letter: char, w: Wave, waves: &[Wave]) -> String {
    let banks = (0..waves.len()).filter(|&b| waves[b] == w);
    let banks: String = banks.map(|b| format!(" {b}")).collect();
    format!("{letter}{banks}\n")
}

impl Memory {
    /// Write a sheet to the front of the output. Bytes beyond its length stay.
    pub fn write_sheet(&self, output: &mut [u8]) -> TextAnswer {
        self.write_text(sheet_text, output)
    }

    /// Write a text of the plan to the front of the output. Bytes beyond its length stay.
    pub(crate) fn write_text(&self, text: Text, output: &mut [u8]) -> TextAnswer {
        match self.text_questions(text, output.len()) {
            Ok(text) => {
                output[..text.len()].copy_from_slice(text.as_bytes());
                TextAnswer {
                    number: ACCEPTED,
                    length: text.len(),
                }
            }
            Err(number) => TextAnswer { number, length: 0 },
        }
    }

    /// All questions of a call that writes a text. The answer is the text.
    fn text_questions(&self, text: Text, space: usize) -> Result<String, u16> {
        let graph = self.plan_questions()?;
        let text = text(&graph.waves(), graph.clashes());
        ask(text.len() <= space, OUTPUT_TOO_SHORT)?;
        Ok(text)
    }
}

/// What the program *sheet* prints for a list on standard input.
pub fn program_output(list: &[u8]) -> Vec<u8> {
    printed(sheet_text, list)
}

/// What a program prints for a list: a text of its plan, or the refusal.
pub(crate) fn printed(text: Text, list: &[u8]) -> Vec<u8> {
    let mut memory = Memory::filled(MAX_BANKS, 0);
    let read = memory.read_list(list);
    if read.number != ACCEPTED {
        return format!("REFUSED {} ROW {}\n", read.number, read.row).into_bytes();
    }
    let graph = memory.held_graph().expect("an accepted list leaves a plan");
    text(&graph.waves(), graph.clashes()).into_bytes()
}
