//! Lists, sheets, posters, crews, doubt and agree, held against the model's programs on random lists.

use crate::desk_here::Desk;
use crate::support::Folder;
use independent::crew::{self, Asked};
use independent::graph::Graph;
use independent::lists::random_list;
use independent::memory::Memory;
use independent::plan::MAX_BANKS;
use independent::random::Random;
use independent::sheets::{any_waves, fewest_waves, other_waves, wrong_sheets};
use independent::{check_sheet, doubt, poster, sheet};
use wave_plan::{Refusal, Refused};

/// Accepted lists are drawn until there are so many.
const LISTS: usize = 30;

/// What a program prints, and after a refusal the question that was answered no.
fn with_question(output: Vec<u8>) -> String {
    let output = String::from_utf8(output).expect("a text");
    let number = output.split_once("REFUSED ").map(|(_, rest)| {
        let digits: String = rest.chars().take_while(char::is_ascii_digit).collect();
        digits.parse().expect("a number")
    });
    let refusal = number.map(|number| Refusal::of(number).expect("a refusal"));
    let question = refusal.map(|refusal| format!("{}\n", Refused { refusal, place: 0 }));
    output + &question.unwrap_or_default()
}

/// The graph of a list that the model accepts.
fn graph_of(list: &[u8]) -> Option<Graph> {
    let mut memory = Memory::filled(MAX_BANKS, 0);
    let accepted = memory.read_list(list).number == 0;
    accepted.then(|| memory.held_graph().expect("a plan"))
}

/// Loads a list, or holds its refusal against the model's.
fn loaded(folder: &Folder, list: &[u8]) -> Option<(Desk, Graph)> {
    let mut desk = Desk::default();
    let file = folder.file("random.list", list);
    let said = desk.says(&format!("load {file}"));
    let graph = graph_of(list);
    if graph.is_none() {
        let output = String::from_utf8(sheet::program_output(list)).expect("a text");
        let words: Vec<&str> = output.split_whitespace().collect();
        let ["REFUSED", number, "ROW", row] = words[..] else {
            panic!("{output}");
        };
        let place = if row == "0" {
            String::new()
        } else {
            format!("row {row}: ")
        };
        let start = format!("load {file}: {place}refused {number}: ");
        assert!(said.starts_with(&start), "{said} for {output}");
    }
    graph.map(|graph| (desk, graph))
}

#[test]
fn programs_lines() {
    let folder = Folder::new();
    let mut random = Random::new(29);
    let mut accepted = 0;
    while accepted < LISTS {
        let list = random_list(&mut random);
        let Some((mut desk, graph)) = loaded(&folder, &list) else {
            continue;
        };
        accepted += 1;
        assert_eq!(
            desk.says("sheet"),
            with_question(sheet::program_output(&list))
        );
        assert_eq!(
            desk.says("poster"),
            with_question(poster::program_output(&list))
        );
        for _ in 0..2 {
            let (couriers, limit) = (
                random.below(67) as u16,
                random.below(graph.banks() + 3) as u16,
            );
            let day = crew::program_output(&list, Asked::Couriers(couriers));
            assert_eq!(desk.says(&format!("crew {couriers}")), with_question(day));
            let least = crew::program_output(&list, Asked::Within(limit));
            assert_eq!(desk.says(&format!("within {limit}")), with_question(least));
            let bank = random.below(graph.banks() + 2) as u16;
            let line = doubt::program_output(&list, &[bank]);
            assert_eq!(desk.says(&format!("doubt {bank}")), with_question(line));
        }
        agreeing(&folder, &mut random, &mut desk, &graph);
    }
}

/// Sheets of all kinds: the planner's, others that keep clashing banks apart, any waves, and damaged ones.
fn agreeing(folder: &Folder, random: &mut Random, desk: &mut Desk, graph: &Graph) {
    let clashes = graph.clashes();
    let text = |waves: &[usize]| sheet::sheet_text(waves, clashes).into_bytes();
    let mut sheets = vec![text(&graph.waves()), text(&other_waves(random, graph))];
    if graph.banks() <= 12 {
        sheets.push(text(&fewest_waves(graph)));
    }
    for _ in 0..4 {
        sheets.push(text(&any_waves(random, graph.banks(), 24)));
    }
    let wrong = wrong_sheets(random, &graph.waves(), clashes);
    sheets.extend((0..6).map(|_| random.pick(&wrong).clone()));
    for drawn in sheets {
        let file = folder.file("drawn.sheet", &drawn);
        let verdict = check_sheet::verdict(graph, &drawn).into_bytes();
        assert_eq!(desk.says(&format!("agree {file}")), with_question(verdict));
    }
}

/// The examples of the README.
#[test]
fn readme_examples() {
    let examples = concat!(env!("CARGO_MANIFEST_DIR"), "/../examples");
    let mut desk = Desk::default();
    desk.says(&format!("load {examples}/six_banks.list"));
    let drawn = desk.says(&format!("agree {examples}/six_banks.drawn"));
    assert_eq!(drawn, "ACCEPTED\nnot the planner's own sheet\n");
    let own = desk.says(&format!("agree {examples}/six_banks.sheet"));
    assert_eq!(own, "ACCEPTED\nthe planner's own sheet\n");
    let folder = Folder::new();
    let clash = folder.file("clash.sheet", b"WAVES 2\nA 0 3\nB 1 2 4 5\nTOTAL 6 5\n");
    let question = "refused 27: Are clashing banks in different waves, and the waves no more than the plan's? \
        No. To do: move one of the two banks that are named, or use the planner's sheet\n";
    let line = "REFUSED 27 banks 1 and 5 clash in wave B\n";
    assert_eq!(
        desk.says(&format!("agree {clash}")),
        format!("{line}{question}")
    );
    desk.says(&format!("load {examples}/depot.list"));
    let day = "CREW 3\n1 A 1 3 4\n2 A 6 8 10\n3 B 0 2 5\n4 B 7 9 11\n";
    assert_eq!(desk.says("within 4"), day);
    desk.says("open 4\n+ 0 1\n+ 1 2\n+ 2 3\n+ 0 3");
    let doubted = "BANK 0 KEPT A READ A\nBANK 3 KEPT B READ B FROM 0 A FROM 2 A\n";
    assert_eq!(desk.says("doubt 0\ndoubt 3"), doubted);
    let missing = desk.says("agree missing.sheet");
    let why =
        "agree missing.sheet: the file could not be read: No such file or directory (os error 2)\n";
    assert_eq!(missing, why);
}
