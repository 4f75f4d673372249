//! Sheets from anybody: the planner's own, those of other waves, with fewer waves, with clashes and with too
//! many waves, and bytes that are no sheet.

use crate::call::{Answer, Call};
use crate::pair::Pair;
use crate::plans::{bank_count, blocks, graph, memory_of};
use crate::{quick, rounds};
use independent::graph::{number_of_waves, Graph, Wave};
use independent::lists;
use independent::random::Random;
use independent::sheet::sheet_text;
use independent::sheets::{any_waves, fewest_waves, one_byte_off, other_waves, wrong_sheets};
use std::collections::BTreeMap;
use wave_plan::{Bank, Plan, WrongSheet};

/// The call on library and model with the sheet of these waves.
fn check(pair: &mut Pair, waves: &[Wave], graph: &Graph) -> Answer {
    let sheet = sheet_text(waves, graph.clashes());
    pair.call(&Call::CheckSheet(sheet.into_bytes()))
}

/// The planner's own sheet, other waves that keep clashing banks apart, and any waves.
#[test]
fn sheets_of_random_plans() {
    let mut random = Random::new(211);
    let mut seen = BTreeMap::new();
    for round in 0..rounds(600) {
        let most = if round % 20 == 0 { 1024 } else { 60 };
        let n = bank_count(&mut random, most);
        let graph = graph(&mut random, n);
        let mut pair = Pair::new(memory_of(&mut random, &graph), random.draw());
        let own = check(&mut pair, &graph.waves(), &graph);
        assert_eq!((own.number, own.results), (0, vec![0, 0, 0]));
        for _ in 0..3 {
            let other = other_waves(&mut random, &graph);
            let many = number_of_waves(&other) > number_of_waves(&graph.waves());
            let got = check(&mut pair, &other, &graph);
            assert_eq!(got.number, if many { 27 } else { 0 });
            assert_eq!(got.results, [0, 0, 0]);
            let own = other == graph.waves();
            *seen.entry((got.number, own, false)).or_insert(0) += 1;
            let waves = any_waves(&mut random, n, 24);
            let got = check(&mut pair, &waves, &graph);
            let clash = got.results[1] != got.results[2];
            *seen.entry((got.number, false, clash)).or_insert(0) += 1;
        }
    }
    // Accepted and the planner's, accepted and not, too many waves, a clash.
    let kinds = [
        (0, true, false),
        (0, false, false),
        (27, false, false),
        (27, false, true),
    ];
    if !quick() {
        for kind in kinds {
            assert!(seen.get(&kind) > Some(&50), "{seen:?}");
        }
    }
}

/// The sheet of the fewest waves, if these are fewer than the planner's, is accepted; with the last bank far above it
/// is none. Answers whether they are fewer.
fn fewer_waves(random: &mut Random, graph: &Graph) -> bool {
    let fewest = fewest_waves(graph);
    if number_of_waves(&fewest) == number_of_waves(&graph.waves()) {
        return false;
    }
    let mut pair = Pair::new(memory_of(random, graph), random.draw());
    assert_eq!(check(&mut pair, &fewest, graph).number, 0);
    let mut apart = fewest;
    *apart.last_mut().expect("a bank") = 23;
    assert_eq!(check(&mut pair, &apart, graph).number, 26);
    true
}

/// All graphs of six banks, and random ones of up to ten with ranks.
#[test]
fn sheets_with_fewer_waves_than_the_planner_s() {
    let mut random = Random::new(212);
    let pairs: Vec<(usize, usize)> = (0..6).flat_map(|b| (0..b).map(move |a| (a, b))).collect();
    let step = if quick() { 97 } else { 1 };
    let mut fewer = 0;
    for bits in (0..1usize << pairs.len()).step_by(step) {
        let set = (0..pairs.len()).filter(|i| bits >> i & 1 == 1);
        let graph = Graph::of(6, set.map(|i| pairs[i]));
        fewer += usize::from(fewer_waves(&mut random, &graph));
    }
    assert!(fewer == 220 || quick(), "{fewer}");
    let mut fewer = 0;
    for _ in 0..rounds(4000) {
        let n = random.between(7, 10);
        let graph = graph(&mut random, n);
        fewer += usize::from(fewer_waves(&mut random, &graph));
    }
    assert!(fewer > 50 || quick(), "{fewer}");
}

/// Each sheet of the edge lists, with one byte changed, dropped or added; of a long one at some places.
#[test]
fn sheets_of_the_edge_lists() {
    let mut random = Random::new(213);
    let (mut sheets, mut wrong) = (0, 0);
    for case in lists::edges() {
        if !case.output.starts_with("WAVES") || (quick() && random.one_in(2)) {
            continue;
        }
        sheets += 1;
        let mut memory = memory_of(&mut random, &Graph::empty(1024));
        assert_eq!(memory.read_list(&case.list).number, 0);
        let graph = memory.held_graph().expect("a plan");
        let mut pair = Pair::new(memory_of(&mut random, &graph), random.draw());
        let sheet = case.output.as_bytes();
        assert_eq!(pair.call(&Call::CheckSheet(sheet.to_vec())).number, 0);
        let places: Vec<usize> = match (sheet.len() < 120, quick()) {
            (true, false) => (0..=sheet.len()).collect(),
            _ => (0..rounds(80).min(8))
                .map(|_| random.below(sheet.len() + 1))
                .collect(),
        };
        for bytes in one_byte_off(sheet, places) {
            let answer = pair.call(&Call::CheckSheet(bytes));
            assert_eq!(answer.number, 26);
            wrong += 1;
        }
    }
    assert!(quick() || (sheets > 20 && wrong > 20_000), "{wrong}");
}

/// A bank twice, missing, out of order or not there, an empty wave, another head or foot.
#[test]
fn sheets_with_other_banks() {
    let mut random = Random::new(214);
    let mut refused = 0;
    for _ in 0..rounds(400) {
        let n = bank_count(&mut random, 60);
        let graph = graph(&mut random, n);
        let mut pair = Pair::new(memory_of(&mut random, &graph), random.draw());
        let waves = match random.below(3) {
            0 => any_waves(&mut random, n, 24),
            1 => other_waves(&mut random, &graph),
            _ => graph.waves(),
        };
        for sheet in wrong_sheets(&mut random, &waves, graph.clashes()) {
            refused += usize::from(pair.call(&Call::CheckSheet(sheet)).number == 26);
        }
    }
    assert!(refused > 5000 || quick(), "{refused}");
}

/// A sheet cut at each byte, and with bytes after it.
#[test]
fn sheets_cut_at_each_byte() {
    let mut random = Random::new(215);
    for _ in 0..rounds(40) {
        let n = bank_count(&mut random, 30);
        let graph = graph(&mut random, n);
        let mut pair = Pair::new(memory_of(&mut random, &graph), random.draw());
        let sheet = sheet_text(&graph.waves(), graph.clashes()).into_bytes();
        for length in 0..sheet.len() {
            let answer = pair.call(&Call::CheckSheet(sheet[..length].to_vec()));
            let line = 1 + sheet[..length].iter().filter(|&&b| b == b'\n').count();
            assert_eq!((answer.number, answer.results[0]), (26, line));
        }
        let twice = [&sheet[..], &sheet].concat();
        assert_eq!(pair.call(&Call::CheckSheet(twice)).number, 26);
    }
}

/// Bytes of any length and content.
#[test]
fn any_bytes() {
    let mut random = Random::new(216);
    for n in [0, 1, 4, 30, 1024] {
        let graph = graph(&mut random, n);
        let mut pair = Pair::new(memory_of(&mut random, &graph), random.draw());
        let head = b"WAVES 1\nA";
        for _ in 0..rounds(200) {
            let length = random.below(60);
            let mut bytes: Vec<u8> = (0..length).map(|_| random.byte()).collect();
            if random.one_in(2) {
                bytes = [head, &bytes[..]].concat();
            }
            assert_eq!(pair.call(&Call::CheckSheet(bytes)).number, 26);
        }
        for byte in *b"\n 0W" {
            let long = [&head[..], &vec![byte; 100_000]].concat();
            assert_eq!(pair.call(&Call::CheckSheet(long)).number, 26);
        }
    }
}

/// 1,024 banks in 24 waves, with 10,000 clashes and more: the longest sheet, of the planner and with two banks
/// that clash in the last wave.
#[test]
fn the_longest_sheets() {
    let mut random = Random::new(217);
    let graph = blocks(1024, 24);
    let mut pair = Pair::new(memory_of(&mut random, &graph), 217);
    assert_eq!(check(&mut pair, &graph.waves(), &graph).number, 0);
    let turned: Vec<Wave> = graph.waves().iter().map(|wave| 23 - wave).collect();
    assert_eq!(check(&mut pair, &turned, &graph).number, 0);
    let mut clash = graph.waves();
    clash[1015] = clash[1014];
    let answer = check(&mut pair, &clash, &graph);
    assert_eq!((answer.number, answer.results), (27, vec![0, 1014, 1015]));
}

/// Through the wrapper that owns its memory: an accepted sheet that is not the planner's, and each refusal.
#[test]
fn sheets_for_an_owned_plan() {
    let mut plan = Plan::open(4).expect("opened");
    for (a, b) in [(0, 1), (1, 2), (2, 3), (0, 3)] {
        plan.add(Bank(a), Bank(b)).expect("added");
    }
    let own = plan.sheet().expect("a sheet");
    let other = "WAVES 2\nA 1 3\nB 0 2\nTOTAL 4 4\n";
    assert_ne!(own, other);
    for sheet in [&own[..], other] {
        assert_eq!(plan.check_sheet(sheet.as_bytes()), Ok(()));
    }
    let many = b"WAVES 3\nA 0\nB 1 3\nC 2\nTOTAL 4 4\n";
    assert_eq!(plan.check_sheet(many), Err(WrongSheet::ManyWaves));
    let clash = b"WAVES 2\nA 0\nB 1 2 3\nTOTAL 4 4\n";
    let banks = WrongSheet::Clash(Bank(1), Bank(2));
    assert_eq!(plan.check_sheet(clash), Err(banks));
    let foot = b"WAVES 2\nA 0 2\nB 1 3\nTOTAL 4 5\n";
    let line = WrongSheet::NoSheet { line: 4 };
    assert_eq!(plan.check_sheet(foot), Err(line));
    assert_eq!(plan.sheet(), Ok(own));
}
