//! The sheet: its text, the space it needs, and the program's output.

use crate::support::{any_graph, memory_of, opened};
use independent::graph::Graph;
use independent::random::Random;
use independent::sheet::{program_output, sheet_text, LETTERS};
use std::io::Write;
use std::process::{Command, Stdio};

const EXAMPLE: &[u8] = b"N 4\n+ 0 1\n+ 1 2\n+ 2 3\n+ 0 3";
const EXAMPLE_SHEET: &[u8] = b"WAVES 2\nA 0 2\nB 1 3\nTOTAL 4 4\n";

#[test]
fn the_example() {
    assert_eq!(program_output(EXAMPLE), EXAMPLE_SHEET);
    assert_eq!(program_output(&[EXAMPLE, b"\n"].concat()), EXAMPLE_SHEET);
}

#[test]
fn the_program_prints_the_example() {
    let mut program = Command::new(env!("CARGO_BIN_EXE_independent"))
        .stdin(Stdio::piped())
        .stdout(Stdio::piped())
        .spawn()
        .unwrap();
    program.stdin.take().unwrap().write_all(EXAMPLE).unwrap();
    let output = program.wait_with_output().unwrap();
    assert_eq!(output.stdout, EXAMPLE_SHEET);
}

#[test]
fn letters_are_a_to_z_without_i_and_o() {
    let letters: String = ('A'..='Z').filter(|c| !"IO".contains(*c)).collect();
    assert_eq!(LETTERS, letters);
    assert_eq!(LETTERS.len(), 24);
}

#[test]
fn banks_stand_ascending_in_their_waves() {
    let text = sheet_text(&[2, 0, 1, 0, 2, 0], 9);
    assert_eq!(text, "WAVES 3\nA 1 3 5\nB 2\nC 0 4\nTOTAL 6 9\n");
}

#[test]
fn the_output_may_be_just_long_enough() {
    let memory = opened(4, &[(0, 1), (1, 2), (2, 3), (0, 3)]);
    let length = EXAMPLE_SHEET.len();
    let mut output = vec![b'?'; length + 2];
    assert_eq!(memory.write_sheet(&mut output[..length - 1]).number, 12);
    assert_eq!(memory.write_sheet(&mut output[..length - 1]).length, 0);
    assert!(output.iter().all(|&byte| byte == b'?'));
    assert_eq!(memory.write_sheet(&mut output[..length]).number, 0);
    assert_eq!(output, [EXAMPLE_SHEET, b"??"].concat());
    output.fill(b'!');
    assert_eq!(memory.write_sheet(&mut output).length, length);
    assert_eq!(output, [EXAMPLE_SHEET, b"!!"].concat());
}

#[test]
fn the_plan_is_asked_before_the_output() {
    let mut memory = opened(4, &[]);
    assert_eq!(memory.write_sheet(&mut []).number, 12);
    memory.waves[0] = 1;
    assert_eq!(memory.write_sheet(&mut []).number, 3);
}

/// The waves, the banks and the clashes, read back off the sheet.
#[test]
fn each_bank_stands_once_in_its_wave() {
    let mut random = Random::new(31);
    for _ in 0..100 {
        let graph = any_graph(&mut random, 60);
        let mut output = vec![0; 400];
        let answer = memory_of(&graph, 0).write_sheet(&mut output);
        let text = std::str::from_utf8(&output[..answer.length]).unwrap();
        let (rest, clashes) = text.trim_end().rsplit_once(' ').unwrap();
        let (above, banks) = rest.rsplit_once("TOTAL ").unwrap();
        assert_eq!(waves_on(above, graph.banks()), graph.waves());
        assert_eq!(banks.parse(), Ok(graph.banks()));
        let pairs = (0..graph.banks()).flat_map(|a| (0..a).map(move |b| (a, b)));
        let pairs = pairs.filter(|&(a, b)| graph.clash(a, b));
        assert_eq!(clashes.parse(), Ok(pairs.count()));
    }
}

/// The waves by bank number that a sheet shows above its foot, each bank once.
fn waves_on(text: &str, n: usize) -> Vec<usize> {
    let mut waves = vec![None; n];
    for (wave, line) in text.lines().skip(1).enumerate() {
        let mut parts = line.split(' ');
        assert_eq!(parts.next(), Some(&LETTERS[wave..=wave]));
        for bank in parts.map(|part| part.parse::<usize>().unwrap()) {
            assert_eq!(waves[bank].replace(wave), None, "once");
        }
    }
    waves.into_iter().map(Option::unwrap).collect()
}

#[test]
fn the_longest_sheets_fit_the_pattern() {
    let graph = Graph::of(24, (0..24).flat_map(|a| (0..a).map(move |b| (a, b))));
    let text = sheet_text(&graph.waves(), graph.clashes());
    assert!(text.starts_with("WAVES 24\nA 0\nB 1\n"));
    assert!(text.ends_with("\nH 7\nJ 8\nK 9\nL 10\nM 11\nN 12\nP 13\nQ 14\nR 15\nS 16\nT 17\nU 18\nV 19\nW 20\nX 21\nY 22\nZ 23\nTOTAL 24 276\n"));
}
