//! A sheet drawn up by anybody: whether the bytes are a sheet of the plan, and whether the plan allows its
//! waves. And the output of the program *agree*.

use crate::graph::{number_of_waves, Bank, Graph, Wave};
use crate::memory::Memory;
use crate::plan::{MAX_BANKS, WAVES};
use crate::refusals::*;
use crate::sheet::{foot, sheet_text, LETTERS};

/// The answer to a sheet: the number; the line at fault, from 1, if the bytes are no sheet of the plan; the
/// two banks, if some clash in one wave. All else is 0.
#[derive(Clone, Copy, Debug, Default, PartialEq, Eq)]
pub struct SheetAnswer {
    pub number: u16,
    pub line: usize,
    pub first: Bank,
    pub second: Bank,
}

impl Memory {
    /// Check a sheet from anybody.
    pub fn check_sheet(&self, sheet: &[u8]) -> SheetAnswer {
        match self.plan_questions() {
            Ok(graph) => check(&graph, sheet),
            Err(number) => SheetAnswer {
                number,
                ..SheetAnswer::default()
            },
        }
    }
}

/// The answer to a sheet by the plan of a graph.
fn check(graph: &Graph, sheet: &[u8]) -> SheetAnswer {
    let accepted = SheetAnswer::default();
    let waves = match waves_on(sheet, graph.banks(), graph.clashes()) {
        Ok(waves) => waves,
        Err(line) => {
            return SheetAnswer {
                number: NO_SHEET,
                line,
                ..accepted
            }
        }
    };
    let refused = SheetAnswer {
        number: SHEET_CLASH,
        ..accepted
    };
    if let Some((first, second)) = clash_in_a_wave(graph, &waves) {
        return SheetAnswer {
            first,
            second,
            ..refused
        };
    }
    if number_of_waves(&waves) > number_of_waves(&graph.waves()) {
        return refused;
    }
    accepted
}

/// The two banks that clash and have the same wave: of several pairs the one with the lowest first bank,
/// then the lowest second.
fn clash_in_a_wave(graph: &Graph, waves: &[Wave]) -> Option<(Bank, Bank)> {
    let pairs = (0..graph.banks()).flat_map(|a| graph.neighbours(a).map(move |b| (a, b)));
    pairs.filter(|&(a, b)| waves[a] == waves[b]).min()
}

/// The waves by bank number that a sheet of n banks and so many clashes shows; or, if the bytes are no such
/// sheet, the first line at fault, counted from 1. It is the foot's, if all lines above it can stand there: that
/// is where a bank is missed, and bytes after the foot count with it.
pub fn waves_on(sheet: &[u8], n: usize, clashes: usize) -> Result<Vec<Wave>, usize> {
    let lines: Vec<&[u8]> = sheet.split_inclusive(|&byte| byte == b'\n').collect();
    // What stands in a line, its line feed included; nothing after the end.
    let line = |number: usize| lines.get(number - 1).copied().unwrap_or(b"");
    let head = |k: &usize| line(1) == format!("WAVES {k}\n").as_bytes();
    let k = (0..=WAVES).find(head).ok_or(1usize)?;
    let mut waves: Vec<Option<Wave>> = vec![None; n];
    for wave in 0..k {
        let number = wave + 2;
        for bank in banks_on(line(number), wave).ok_or(number)? {
            let free = waves.get_mut(bank).filter(|wave| wave.is_none());
            *free.ok_or(number)? = Some(wave);
        }
    }
    let last = k + 2;
    let waves: Vec<Wave> = waves.into_iter().collect::<Option<_>>().ok_or(last)?;
    let foot = format!("{}\n", foot(&waves, clashes));
    let ends = line(last) == foot.as_bytes() && lines.len() == last;
    ends.then_some(waves).ok_or(last)
}

/// The banks on the line of a wave, if it is the line of some banks: at least one, ascending.
fn banks_on(line: &[u8], wave: Wave) -> Option<Vec<Bank>> {
    let text = std::str::from_utf8(line).ok()?;
    let numbers = text.trim_end().split(' ').skip(1);
    let banks: Vec<Bank> = numbers
        .map(|part| part.parse().ok())
        .collect::<Option<_>>()?;
    let shown: String = banks.iter().map(|bank| format!(" {bank}")).collect();
    let same = text == format!("{}{shown}\n", &LETTERS[wave..=wave]);
    let ascending = banks.windows(2).all(|pair| pair[0] < pair[1]);
    (same && ascending && !banks.is_empty()).then_some(banks)
}

/// What the program *agree* prints for a list and a sheet.
pub fn program_output(list: &[u8], sheet: &[u8]) -> Vec<u8> {
    let mut memory = Memory::filled(MAX_BANKS, 0);
    let read = memory.read_list(list);
    if read.number != ACCEPTED {
        return format!("REFUSED {} ROW {}\n", read.number, read.row).into_bytes();
    }
    let graph = memory.held_graph().expect("an accepted list leaves a plan");
    verdict(&graph, sheet).into_bytes()
}

/// The lines of the verdict on a sheet by the plan of a graph.
pub fn verdict(graph: &Graph, sheet: &[u8]) -> String {
    let answer = check(graph, sheet);
    let SheetAnswer { first, second, .. } = answer;
    match answer.number {
        ACCEPTED => {
            let own = sheet_text(&graph.waves(), graph.clashes());
            let not = if own.as_bytes() == sheet { "" } else { "not " };
            format!("ACCEPTED\n{not}the planner's own sheet\n")
        }
        NO_SHEET => format!("REFUSED 26 line {}\n", answer.line),
        _ if first == second => {
            let k = number_of_waves(&graph.waves());
            format!("REFUSED 27 more than {k} waves\n")
        }
        _ => {
            let waves = waves_on(sheet, graph.banks(), graph.clashes()).expect("a sheet");
            let letter = &LETTERS[waves[first]..][..1];
            format!("REFUSED 27 banks {first} and {second} clash in wave {letter}\n")
        }
    }
}
