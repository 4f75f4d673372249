//! The poster: its pages, the space they need, and the program's output.

use crate::support::{any_graph, memory_of, opened};
use independent::graph::Graph;
use independent::poster::{poster_text, program_output};
use independent::random::Random;
use independent::sheet::LETTERS;

/// The lines of a poster above its foot, without the spaces at their ends. The foot is the last
/// line that is not of spaces.
fn lines(waves: &[usize]) -> Vec<String> {
    let text = poster_text(waves, 321);
    let lines: Vec<&str> = text.split_terminator('\n').collect();
    assert_eq!(lines.len() % 50, 0);
    assert!(lines.iter().all(|line| line.len() == 40));
    let foot = lines.iter().rposition(|line| *line != " ".repeat(40));
    let foot = foot.expect("a foot");
    assert_eq!(lines[foot].trim_end(), format!("TOTAL {} 321", waves.len()));
    let shown = &lines[..foot];
    shown
        .iter()
        .map(|line| line.trim_end().to_string())
        .collect()
}

#[test]
fn banks_stand_in_five_columns() {
    assert_eq!(
        lines(&[2, 0, 1, 0, 2, 0]),
        ["A     1    3    5", "B     2", "C     0    4"]
    );
}

#[test]
fn a_wave_goes_on_after_seven_banks() {
    let first = "A     0    1    2    3    4    5    6";
    assert_eq!(lines(&[0; 7]), [first]);
    assert_eq!(lines(&[0; 8]), [first, "      7"]);
    let second = "      7    8    9   10   11   12   13";
    assert_eq!(lines(&[0; 14]), [first, second]);
    assert_eq!(lines(&[0; 15]), [first, second, "     14"]);
}

/// Nine banks of which 0 and 8 clash: three lines, the foot, and 46 that fill the page.
#[test]
fn the_page_of_nine_banks() {
    let waves = Graph::of(9, [(0, 8)]).waves();
    let lines = [
        "A     0    1    2    3    4    5    6   \n".to_string(),
        format!("      7{}\n", " ".repeat(33)),
        format!("B     8{}\n", " ".repeat(33)),
        format!("TOTAL 9 1{}\n", " ".repeat(31)),
        format!("{}\n", " ".repeat(40)).repeat(46),
    ];
    assert_eq!(poster_text(&waves, 1), lines.concat());
}

#[test]
fn four_digits_leave_a_space() {
    let lines = lines(&[0; 1024]);
    assert_eq!(lines.len(), 147);
    assert_eq!(lines[146], "   1022 1023");
    assert_eq!(lines[142], "    994  995  996  997  998  999 1000");
}

#[test]
fn pages_have_50_lines() {
    for (banks, pages) in [(0, 1), (1, 1), (343, 1), (344, 2), (350, 2), (1024, 3)] {
        assert_eq!(poster_text(&vec![0; banks], 0).len(), pages * 50 * 41);
    }
    let foot = format!("TOTAL 343 0{}\n", " ".repeat(29));
    assert!(poster_text(&[0; 343], 0).ends_with(&foot));
    assert!(poster_text(&[0; 344], 0).ends_with(&format!("{}\n", " ".repeat(40))));
}

/// Waves of 1,001 and 23 times one bank take the most lines: 143 and 23, and the foot.
#[test]
fn the_longest_poster() {
    let graph = Graph::of(1024, (0..24).flat_map(|a| (0..a).map(move |b| (a, b))));
    let lines = lines(&graph.waves());
    assert_eq!(lines.len(), 166);
    assert_eq!(lines[165], "Z    23");
    assert_eq!(poster_text(&graph.waves(), graph.clashes()).len(), 8200);
}

#[test]
fn the_output_may_be_just_long_enough() {
    let memory = opened(4, &[(0, 1), (1, 2), (2, 3), (0, 3)]);
    let page = poster_text(&[0, 1, 0, 1], 4).into_bytes();
    assert!(page.starts_with(b"A     0    2                            \nB     1    3    "));
    let mut output = vec![b'?'; 2052];
    let short = memory.write_poster(&mut output[..2049]);
    assert_eq!((short.number, short.length), (12, 0));
    assert!(output.iter().all(|&byte| byte == b'?'));
    assert_eq!(memory.write_poster(&mut output[..2050]).number, 0);
    assert_eq!(output, [&page[..], b"??"].concat());
    assert_eq!(memory.write_poster(&mut output).length, 2050);
}

#[test]
fn the_plan_is_asked_before_the_output() {
    let mut memory = opened(4, &[]);
    assert_eq!(memory.write_poster(&mut []).number, 12);
    memory.waves[0] = 1;
    assert_eq!(memory.write_poster(&mut []).number, 3);
    assert_eq!(opened(0, &[]).write_poster(&mut []).number, 12);
}

/// The waves, read back off the pages column by column.
#[test]
fn each_bank_stands_once_in_its_wave() {
    let mut random = Random::new(33);
    for _ in 0..100 {
        let graph = any_graph(&mut random, 200);
        let mut output = vec![0; 8200];
        let answer = memory_of(&graph, 0).write_poster(&mut output);
        let text = std::str::from_utf8(&output[..answer.length]).unwrap();
        let mut waves = vec![None; graph.banks()];
        let mut wave = None;
        let above = text.lines().take_while(|line| !line.starts_with("TOTAL "));
        for line in above {
            if !line.starts_with(' ') {
                wave = LETTERS.find(&line[..1]);
            }
            let columns = (0..7).map(|i| line[2 + 5 * i..][..5].trim());
            for bank in columns.filter(|columns| !columns.is_empty()) {
                let bank: usize = bank.parse().unwrap();
                assert_eq!(waves[bank].replace(wave.unwrap()), None, "once");
            }
        }
        let waves: Vec<usize> = waves.into_iter().map(Option::unwrap).collect();
        assert_eq!(waves, graph.waves());
    }
}

#[test]
fn a_refused_list_prints_no_page() {
    assert_eq!(program_output(b"N 4\n+ 0 4"), b"REFUSED 4 ROW 2\n");
}

#[test]
fn a_plan_without_banks_has_a_page() {
    let page = String::from_utf8(program_output(b"N 0")).unwrap();
    let blank = format!("{}\n", " ".repeat(40));
    assert_eq!(page, format!("{:40}\n{}", "TOTAL 0 0", blank.repeat(49)));
}
