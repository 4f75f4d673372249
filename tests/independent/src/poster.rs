//! The gate poster's text, the call that writes it, and the output of the program *poster*.

use crate::graph::{number_of_waves, Bank, Wave};
use crate::memory::Memory;
use crate::sheet::{foot, printed, TextAnswer, LETTERS};

/// The most banks of a line, and the lines of a page.
const LINE_BANKS: usize = 7;
const PAGE_LINES: usize = 50;

/// The poster of the waves by bank number and the number of clashes: pages of 50 lines of 40
/// characters and a line feed. The foot is the line after the last wave's last one.
pub fn poster_text(waves: &[Wave], clashes: usize) -> String {
    let k = number_of_waves(waves);
    let lines = LETTERS.chars().take(k).enumerate();
    let mut lines: Vec<String> = lines
        .flat_map(|(w, letter)| wave_lines(letter, w, waves))
        .collect();
    lines.push(foot(waves, clashes));
    while lines.len() % PAGE_LINES != 0 {
        lines.push(String::new());
    }
    lines.iter().map(|line| format!("{line:40}\n")).collect()
}

/// The lines of wave w, without the spaces at their ends: the first starts with the letter and a
/// space, the others with two spaces; then up to seven banks, five columns each.
fn wave_lines(letter: char, w: Wave, waves: &[Wave]) -> Vec<String> {
    let banks: Vec<Bank> = (0..waves.len()).filter(|&b| waves[b] == w).collect();
    let start = |i| if i == 0 { letter } else { ' ' };
    let columns = |part: &[Bank]| part.iter().map(|b| format!("{b:>5}")).collect::<String>();
    let parts = banks.chunks(LINE_BANKS).enumerate();
    parts
        .map(|(i, part)| format!("{} {}", start(i), columns(part)))
        .collect()
}

impl Memory {
    /// Write a poster to the front of the output. Bytes beyond its length stay.
    pub fn write_poster(&self, output: &mut [u8]) -> TextAnswer {
        self.write_text(poster_text, output)
    }
}

/// What the program *poster* prints for a list on standard input.
pub fn program_output(list: &[u8]) -> Vec<u8> {
    printed(poster_text, list)
}
