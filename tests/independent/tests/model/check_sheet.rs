//! Sheets drawn up by anybody: which bytes are one, the line at fault, the banks that clash, and sheets with
//! fewer waves than the planner's.

use crate::support::{any_graph, memory_of, opened, table};
use independent::check_sheet::{program_output, verdict, waves_on, SheetAnswer};
use independent::graph::{number_of_waves, Graph, Wave};
use independent::lists;
use independent::memory::Memory;
use independent::random::Random;
use independent::sheet::sheet_text;
use independent::sheets::{any_waves, fewest_waves, one_byte_off, other_waves};
use independent::sheets::{text_of, wrong_sheets};
use std::collections::BTreeMap;

const SQUARE: &[(u16, u16)] = &[(0, 1), (1, 2), (2, 3), (0, 3)];

/// The answer as a tuple: number, line, first, second.
fn answer(memory: &Memory, sheet: &str) -> (u16, usize, usize, usize) {
    tuple(memory.check_sheet(sheet.as_bytes()))
}

fn tuple(answer: SheetAnswer) -> (u16, usize, usize, usize) {
    (answer.number, answer.line, answer.first, answer.second)
}

/// All waves of n banks, each below k.
fn waves_below(n: usize, k: usize) -> Vec<Vec<Wave>> {
    let mut all: Vec<Vec<Wave>> = vec![Vec::new()];
    for _ in 0..n {
        let one_more = |waves: Vec<Wave>| (0..k).map(move |wave| [&waves[..], &[wave]].concat());
        all = all.into_iter().flat_map(one_more).collect();
    }
    all
}

/// All waves of n banks, none empty below the highest.
fn all_waves(n: usize) -> Vec<Vec<Wave>> {
    let mut all = waves_below(n, n);
    all.retain(|waves| (0..number_of_waves(waves)).all(|wave| waves.contains(&wave)));
    all
}

/// Of few banks, all sheets: bytes one byte away from one are a sheet exactly if they are one of them.
#[test]
fn sheets_are_the_texts_of_some_waves() {
    let mut random = Random::new(201);
    for n in 0..=4 {
        let sheets = all_waves(n).into_iter();
        let sheets: BTreeMap<Vec<u8>, Vec<Wave>> = sheets
            .map(|waves| (sheet_text(&waves, 3).into_bytes(), waves))
            .collect();
        assert_eq!(sheets.len(), [1, 1, 3, 13, 75][n]);
        let (mut good, mut wrong) = (0, 0);
        for (sheet, waves) in &sheets {
            assert_eq!(waves_on(sheet, n, 3).as_ref(), Ok(waves));
            let mut near = one_byte_off(sheet, 0..=sheet.len());
            near.extend(wrong_sheets(&mut random, waves, 3));
            for bytes in near {
                let read = waves_on(&bytes, n, 3);
                assert_eq!(read.as_ref().ok(), sheets.get(&bytes));
                *if read.is_ok() { &mut good } else { &mut wrong } += 1;
            }
        }
        assert!(wrong > 1000 && (good > 0 || n < 2), "{good}, {wrong}");
    }
}

/// What can begin a sheet of n banks, with how many lines of waves: each first line, and after it the lines of
/// some banks in some waves, none empty.
fn beginnings(n: usize) -> Vec<(usize, String)> {
    let mut all = Vec::new();
    for k in 0..=24 {
        for c in 0..=k.min(n) {
            // Wave c stands for the banks that are not named yet.
            for waves in waves_below(n, c + 1) {
                let banks = |wave: usize| (0..n).filter(|&b| waves[b] == wave).collect();
                let lines: Vec<Vec<usize>> = (0..c).map(banks).collect();
                if lines.iter().all(|line| !line.is_empty()) {
                    let text =
                        text_of(&lines, 0, 0).replacen(&format!(" {c}\n"), &format!(" {k}\n"), 1);
                    all.push((c, text.strip_suffix("TOTAL 0 0\n").unwrap().to_string()));
                }
            }
        }
    }
    all
}

/// The line at fault is the one after all that can begin a sheet.
#[test]
fn the_line_after_what_begins_a_sheet() {
    let mut random = Random::new(203);
    let mut lines = BTreeMap::new();
    for n in 0..=3 {
        let beginnings = beginnings(n);
        for waves in all_waves(n) {
            let sheet = sheet_text(&waves, 3).into_bytes();
            let mut near = one_byte_off(&sheet, 0..=sheet.len());
            near.extend(wrong_sheets(&mut random, &waves, 3));
            near.extend((0..sheet.len()).map(|length| sheet[..length].to_vec()));
            for bytes in near {
                let Err(line) = waves_on(&bytes, n, 3) else {
                    continue;
                };
                let begun = beginnings
                    .iter()
                    .filter(|(_, text)| bytes.starts_with(text.as_bytes()));
                let most = begun.map(|(c, _)| c + 2).max();
                assert_eq!(line, most.unwrap_or(1), "{}", bytes.escape_ascii());
                *lines.entry(line).or_insert(0) += 1;
            }
        }
    }
    assert!(
        lines.len() == 5 && lines.values().all(|&times| times > 50),
        "{lines:?}"
    );
}

#[test]
fn the_line_at_fault() {
    let memory = opened(4, SQUARE);
    for (line, sheet) in [
        (1, ""),
        (1, "WAVES 2"),
        (1, "WAVES 02\nA 0 2\nB 1 3\nTOTAL 4 4\n"),
        (1, "WAVES 25\n"),
        (1, "WAVES 2 \nA 0 2\nB 1 3\nTOTAL 4 4\n"),
        (1, "\nWAVES 2\nA 0 2\nB 1 3\nTOTAL 4 4\n"),
        (2, "WAVES 2\n"),
        (2, "WAVES 2\nB 1 3\nA 0 2\nTOTAL 4 4\n"),
        (2, "WAVES 2\nA\nB 0 1 2 3\nTOTAL 4 4\n"),
        (2, "WAVES 2\nA 2 0\nB 1 3\nTOTAL 4 4\n"),
        (2, "WAVES 2\nA 0 0\nB 1 3\nTOTAL 4 4\n"),
        (2, "WAVES 2\nA 0  2\nB 1 3\nTOTAL 4 4\n"),
        (2, "WAVES 2\nA 0 2 \nB 1 3\nTOTAL 4 4\n"),
        (2, "WAVES 2\nA 00 2\nB 1 3\nTOTAL 4 4\n"),
        (2, "WAVES 2\nA 0 4\nB 1 3\nTOTAL 4 4\n"),
        (2, "WAVES 0\nA 0 2\nB 1 3\nTOTAL 4 4\n"),
        (3, "WAVES 1\nA 0 2\nB 1 3\nTOTAL 4 4\n"),
        (3, "WAVES 2\nA 0 2\nB 0 3\nTOTAL 4 4\n"),
        (3, "WAVES 2\nA 0 2\nB 1 3"),
        (3, "WAVES 2\nA 0 2\nI 1 3\nTOTAL 4 4\n"),
        (4, "WAVES 2\nA 0 2\nB 1 3\n"),
        (4, "WAVES 2\nA 0 2\nB 1\nTOTAL 4 4\n"),
        (4, "WAVES 2\nA 0 2\nB 1 3\nTOTAL 4 4"),
        (4, "WAVES 2\nA 0 2\nB 1 3\nTOTAL 4 3\n"),
        (4, "WAVES 2\nA 0 2\nB 1 3\nTOTAL 5 4\n"),
        (4, "WAVES 3\nA 0 2\nB 1 3\nTOTAL 4 4\n"),
        (4, "WAVES 2\nA 0 2\nB 1 3\nTOTAL 4 4\n\n"),
        (4, "WAVES 2\nA 0 2\nB 1 3\nTOTAL 4 4\nA"),
    ] {
        assert_eq!(answer(&memory, sheet), (26, line, 0, 0), "{sheet:?}");
    }
}

/// An accepted sheet that is not the planner's.
#[test]
fn the_square_the_other_way_round() {
    let memory = opened(4, SQUARE);
    let own = "WAVES 2\nA 0 2\nB 1 3\nTOTAL 4 4\n";
    let other = "WAVES 2\nA 1 3\nB 0 2\nTOTAL 4 4\n";
    assert_eq!(answer(&memory, own), (0, 0, 0, 0));
    assert_eq!(answer(&memory, other), (0, 0, 0, 0));
    let list = b"N 4\n+ 0 1\n+ 1 2\n+ 2 3\n+ 0 3";
    let told = |sheet: &str| String::from_utf8(program_output(list, sheet.as_bytes())).unwrap();
    assert_eq!(told(own), "ACCEPTED\nthe planner's own sheet\n");
    assert_eq!(told(other), "ACCEPTED\nnot the planner's own sheet\n");
    assert_eq!(told(&own[1..]), "REFUSED 26 line 1\n");
    let three = "WAVES 3\nA 0\nB 1 3\nC 2\nTOTAL 4 4\n";
    assert_eq!(answer(&memory, three), (27, 0, 0, 0));
    assert_eq!(told(three), "REFUSED 27 more than 2 waves\n");
    let clash = "WAVES 2\nA 0 2\nB 1 3\nTOTAL 4 4\n".replace("0 2\nB 1 3", "0\nB 1 2 3");
    assert_eq!(answer(&memory, &clash), (27, 0, 1, 2));
    assert_eq!(told(&clash), "REFUSED 27 banks 1 and 2 clash in wave B\n");
    // A clash and a wave too many: the clash is named.
    let both = "WAVES 3\nA 0\nB 1\nC 2 3\nTOTAL 4 4\n";
    assert_eq!(answer(&memory, both), (27, 0, 2, 3));
    assert_eq!(
        program_output(b"N 4\n+ 0 0", own.as_bytes()),
        b"REFUSED 5 ROW 2\n"
    );
}

/// M9 has three waves where two are enough.
#[test]
fn fewer_waves_than_the_planner_s() {
    let m9 = opened(6, &[(0, 4), (0, 2), (2, 3), (1, 3), (1, 5)]);
    let own = "WAVES 3\nA 0 1\nB 2 4 5\nC 3\nTOTAL 6 5\n";
    let fewer = "WAVES 2\nA 0 3 5\nB 1 2 4\nTOTAL 6 5\n";
    assert_eq!(answer(&m9, own), (0, 0, 0, 0));
    assert_eq!(answer(&m9, fewer), (0, 0, 0, 0));
    let graph = m9.held_graph().unwrap();
    assert_eq!(sheet_text(&fewest_waves(&graph), 5), fewer);
}

/// On all graphs of six banks the sheet of the fewest waves is accepted; in some it has fewer than the planner's.
#[test]
fn the_fewest_waves_of_six_banks() {
    let pairs: Vec<(usize, usize)> = (0..6).flat_map(|b| (0..b).map(move |a| (a, b))).collect();
    let mut fewer = 0;
    for bits in 0..1usize << pairs.len() {
        let set = (0..pairs.len()).filter(|i| bits >> i & 1 == 1);
        let graph = Graph::of(6, set.map(|i| pairs[i]));
        let fewest = fewest_waves(&graph);
        let kept = number_of_waves(&graph.waves());
        assert!(number_of_waves(&fewest) <= kept);
        if number_of_waves(&fewest) < kept {
            fewer += 1;
            let sheet = sheet_text(&fewest, graph.clashes());
            assert_eq!(answer(&memory_of(&graph, 1), &sheet), (0, 0, 0, 0));
        }
    }
    assert!(fewer > 100, "{fewer}");
}

/// Waves of all kinds against the sentence of the request, read off a table of the clashes.
#[test]
fn random_waves() {
    let mut random = Random::new(202);
    let mut numbers = BTreeMap::new();
    for _ in 0..2000 {
        let graph = any_graph(&mut random, 30);
        let memory = memory_of(&graph, 1);
        let waves = match random.below(3) {
            0 => graph.waves(),
            1 => other_waves(&mut random, &graph),
            _ => any_waves(&mut random, graph.banks(), 24),
        };
        let (table, n) = (table(&graph), graph.banks());
        let mut pairs = (0..n).flat_map(|a| (a + 1..n).map(move |b| (a, b)));
        let clash = pairs.find(|&(a, b)| table[a][b] && waves[a] == waves[b]);
        let many = waves.iter().max() > graph.waves().iter().max();
        let wanted = match clash {
            Some((first, second)) => (27, 0, first, second),
            None if many => (27, 0, 0, 0),
            None => (0, 0, 0, 0),
        };
        let got = answer(&memory, &sheet_text(&waves, graph.clashes()));
        assert_eq!(got, wanted);
        *numbers.entry((got.0, got.2 != got.3)).or_insert(0) += 1;
        if waves == graph.waves() {
            assert_eq!(got.0, 0, "the planner's own sheet");
        }
    }
    assert_eq!(numbers.len(), 3);
    assert!(numbers.values().all(|&times| times > 100), "{numbers:?}");
}

/// The sheet of each edge list is accepted for the list's plan as its own, and no bytes one byte away are.
#[test]
fn sheets_of_the_edge_lists() {
    let own = "ACCEPTED\nthe planner's own sheet\n";
    let other = "ACCEPTED\nnot the planner's own sheet\n";
    let (mut sheets, mut accepted) = (0, 0);
    for case in lists::edges() {
        if !case.output.starts_with("WAVES") {
            continue;
        }
        sheets += 1;
        let mut memory = Memory::filled(1024, 0);
        assert_eq!(memory.read_list(&case.list).number, 0);
        let graph = memory.held_graph().unwrap();
        let sheet = case.output.as_bytes();
        assert_eq!(verdict(&graph, sheet), own);
        let step = sheet.len() / 60 + 1;
        for bytes in one_byte_off(sheet, (0..=sheet.len()).step_by(step)) {
            let verdict = verdict(&graph, &bytes);
            assert!(verdict == other || verdict.starts_with("REFUSED 2"));
            accepted += usize::from(verdict == other);
        }
    }
    assert!(sheets > 20, "{sheets}");
    assert_eq!(accepted, 0, "one byte cannot change two banks");
}

#[test]
fn the_call_asks_its_questions_first() {
    let mut memory = opened(4, SQUARE);
    assert_eq!(answer(&memory, ""), (26, 1, 0, 0));
    memory.waves[0] += 1;
    assert_eq!(answer(&memory, ""), (3, 0, 0, 0));
    memory.degrees.clear();
    assert_eq!(answer(&memory, ""), (2, 0, 0, 0));
    memory.tally.banks = 1025;
    assert_eq!(answer(&memory, ""), (1, 0, 0, 0));
}
