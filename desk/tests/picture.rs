//! Pictures of plans: well-formed, each bank and each clash once and in its place, the last edit's banks
//! marked, proportions that fit a screen and a phone.

use desk::picture::svg;
use independent::random::Random;
use std::collections::{BTreeMap, BTreeSet};
use std::io::Write;
use std::process::{Command, Stdio};
use wave_plan::{Bank, Kind, LastEdit, Plan};

/// An element of a picture: the identifier of its outermost group, its tag, attributes and text.
struct Element {
    group: String,
    tag: String,
    attributes: BTreeMap<String, String>,
    text: String,
}

impl Element {
    fn number(&self, attribute: &str) -> i32 {
        self.attributes[attribute].parse().expect("a number")
    }

    fn id(&self) -> &str {
        self.attributes.get("id").map_or("", String::as_str)
    }
}

/// Reads an SVG with Python's parser and prints a line for each element, parts separated by tabs.
const READER: &str = r#"
import sys, xml.etree.ElementTree as tree
root = tree.parse(sys.stdin.buffer).getroot()
space = "{http://www.w3.org/2000/svg}"
def show(element, group):
    assert element.tag.startswith(space), element.tag
    parts = [group, element.tag[len(space):], (element.text or "").strip()]
    print("\t".join(parts + [f"{k}={v}" for k, v in element.attrib.items()]))
    for child in element:
        show(child, group or (child.get("id") if child.tag == space + "g" else ""))
show(root, "")
"#;

/// The elements of a well-formed SVG.
fn elements(svg: &str) -> Vec<Element> {
    let mut python = Command::new("python3")
        .args(["-c", READER])
        .stdin(Stdio::piped())
        .stdout(Stdio::piped())
        .spawn()
        .expect("python3 starts");
    let mut input = python.stdin.take().expect("its input");
    input.write_all(svg.as_bytes()).expect("it reads");
    drop(input);
    let output = python.wait_with_output().expect("it ends");
    assert!(output.status.success(), "not well-formed:\n{svg}");
    let lines = String::from_utf8(output.stdout).expect("text");
    lines.lines().map(element).collect()
}

fn element(line: &str) -> Element {
    let parts: Vec<&str> = line.split('\t').collect();
    let attribute = |part: &&str| {
        let (key, value) = part.split_once('=').expect("an attribute");
        (key.to_string(), value.to_string())
    };
    Element {
        group: parts[0].to_string(),
        tag: parts[1].to_string(),
        text: parts[2].to_string(),
        attributes: parts[3..].iter().map(attribute).collect(),
    }
}

/// The elements with a tag in the groups.
fn in_groups<'a>(all: &'a [Element], groups: &[&str], tag: &str) -> Vec<&'a Element> {
    let wanted = |e: &&Element| e.tag == tag && groups.contains(&e.group.as_str());
    all.iter().filter(wanted).collect()
}

/// The numbers in the identifiers, `bank-3` or `clash-3-7`, each once.
fn named(elements: &[&Element], prefix: &str) -> BTreeSet<Vec<u16>> {
    let set: BTreeSet<Vec<u16>> = elements.iter().map(|e| numbers_of(e, prefix)).collect();
    assert_eq!(set.len(), elements.len(), "each once");
    set
}

/// The numbers in an identifier.
fn numbers_of(element: &Element, prefix: &str) -> Vec<u16> {
    let rest = element.id().strip_prefix(prefix).expect(prefix);
    let parts = rest.split('-');
    parts.map(|part| part.parse().expect("a number")).collect()
}

fn set_of(banks: impl IntoIterator<Item = Bank>) -> BTreeSet<Vec<u16>> {
    banks.into_iter().map(|b| vec![b.0]).collect()
}

/// All that a picture shows, against the plan and the edit.
fn check(plan: &Plan, last: Option<&LastEdit>, numbers: bool) -> Vec<Element> {
    let picture = svg(plan, last, numbers);
    assert_eq!(picture, svg(plan, last, numbers));
    assert_eq!(picture.matches("http").count(), 1, "the namespace alone");
    let all = elements(&picture);
    let tags: BTreeSet<&str> = all.iter().map(|e| e.tag.as_str()).collect();
    let known = [
        "svg", "title", "desc", "g", "rect", "circle", "path", "text",
    ];
    assert!(tags.iter().all(|tag| known.contains(tag)), "{tags:?}");
    let head: Vec<(&str, bool)> = all[..3]
        .iter()
        .map(|e| (e.tag.as_str(), e.text.is_empty()))
        .collect();
    assert_eq!(head, [("svg", true), ("title", false), ("desc", false)]);
    check_banks(&all, plan, last);
    check_clashes(&all, plan, last);
    let shown = in_groups(&all, &["numbers", "moved-numbers"], "text");
    let shown: BTreeSet<Vec<u16>> = shown
        .iter()
        .map(|e| vec![e.text.parse().unwrap()])
        .collect();
    let every = numbers || plan.banks() <= 64;
    assert_eq!(shown, set_of(banks(plan).filter(|_| every)));
    all
}

fn banks(plan: &Plan) -> impl Iterator<Item = Bank> {
    (0..plan.banks()).map(Bank)
}

/// Each bank once, in its wave's column and in the group of its mark; the named ones in a square.
fn check_banks(all: &[Element], plan: &Plan, last: Option<&LastEdit>) {
    let edit = last.map(|last| last.edit().clone());
    let (trail, moved) = edit.map_or_else(Default::default, |edit| (edit.trail, edit.moved));
    let (trail, moved) = (set_of(trail), set_of(moved));
    let circles = |groups: &[&str]| named(&in_groups(all, groups, "circle"), "bank-");
    let every = set_of(banks(plan));
    assert_eq!(circles(&["banks", "taken-up", "moved"]), every);
    assert_eq!(circles(&["moved"]), moved);
    assert_eq!(circles(&["taken-up"]), &trail - &moved);
    let squares = named(&in_groups(all, &["named"], "rect"), "named-");
    let pair = last.map(|last| [last.banks().0, last.banks().1]);
    assert_eq!(squares, set_of(pair.into_iter().flatten()));

    let columns = in_groups(all, &["columns"], "rect");
    let letters = in_groups(all, &["letters"], "text");
    assert_eq!(columns.len(), usize::from(plan.wave_count()));
    let centres = centres(all);
    let apart: BTreeSet<&(i32, i32)> = centres.values().collect();
    assert_eq!(apart.len(), centres.len(), "no two in one place");
    for (b, wave) in plan.waves().into_iter().enumerate() {
        let (x, y) = centres[&(b as u16)];
        let (column, letter) = (columns[usize::from(wave.0)], letters[usize::from(wave.0)]);
        let within = |at, from, length| from < at && at < from + length;
        assert!(within(x, column.number("x"), column.number("width")));
        assert!(within(y, column.number("y"), column.number("height")));
        assert_eq!(letter.text, wave.letter().to_string());
        assert!(within(
            letter.number("x"),
            column.number("x"),
            column.number("width")
        ));
    }
}

/// The centre of each bank.
fn centres(all: &[Element]) -> BTreeMap<u16, (i32, i32)> {
    let circles = in_groups(all, &["banks", "taken-up", "moved"], "circle");
    let centre = |e: &&Element| {
        let number = numbers_of(e, "bank-")[0];
        (number, (e.number("cx"), e.number("cy")))
    };
    circles.iter().map(centre).collect()
}

/// A line for each clash, once, from the one bank to the other, in the group that it belongs to.
fn check_clashes(all: &[Element], plan: &Plan, last: Option<&LastEdit>) {
    let lines = |groups: &[&str]| in_groups(all, groups, "path");
    let drawn = lines(&["clashes", "clashes-taken-up", "added"]);
    let clashes = clashes(plan);
    assert_eq!(named(&drawn, "clash-"), clashes);
    let centres = centres(all);
    for (line, clash) in drawn.iter().map(|line| (line, numbers_of(line, "clash-"))) {
        let ends = [centres[&clash[0]], centres[&clash[1]]];
        assert_eq!(ends_of(line), sorted(ends));
    }
    let of_edit = |kind| last.filter(|last| last.kind() == kind).map(LastEdit::banks);
    let added = of_edit(Kind::Adding).map(|(a, b)| vec![a.0.min(b.0), a.0.max(b.0)]);
    let added: BTreeSet<Vec<u16>> = added.into_iter().collect();
    assert_eq!(named(&lines(&["added"]), "clash-"), added);
    let on_trail = |b: &u16| last.map_or(false, |last| last.edit().trail.contains(&Bank(*b)));
    let both = clashes
        .into_iter()
        .filter(|clash| clash.iter().all(on_trail));
    let both: BTreeSet<Vec<u16>> = both.filter(|clash| !added.contains(clash)).collect();
    assert_eq!(named(&lines(&["clashes-taken-up"]), "clash-"), both);
    let struck: Vec<[(i32, i32); 2]> = lines(&["struck"]).into_iter().map(ends_of).collect();
    let wanted = of_edit(Kind::Striking).map(|(a, b)| [centres[&a.0], centres[&b.0]]);
    let wanted: Vec<[(i32, i32); 2]> = wanted.into_iter().map(sorted).collect();
    assert_eq!(struck, wanted);
}

fn sorted(mut ends: [(i32, i32); 2]) -> [(i32, i32); 2] {
    ends.sort_unstable();
    ends
}

/// The clashes of a plan, smaller bank first.
fn clashes(plan: &Plan) -> BTreeSet<Vec<u16>> {
    let of = |a: Bank| {
        plan.neighbours_of(a)
            .into_iter()
            .map(move |b| vec![a.0, b.0])
    };
    let pairs = banks(plan).flat_map(of);
    pairs.filter(|clash| clash[0] < clash[1]).collect()
}

/// Where a line starts and ends: `M1 2q3 4 5 6` goes from (1, 2) to (6, 8).
fn ends_of(line: &Element) -> [(i32, i32); 2] {
    let path = line.attributes["d"].replace('M', "").replace('q', " ");
    let parts: Vec<i32> = path.split(' ').map(|part| part.parse().unwrap()).collect();
    let (x, y) = (parts[0], parts[1]);
    [(x, y), (x + parts[4], y + parts[5])]
}

/// Width and height of a picture.
fn size(all: &[Element]) -> (i32, i32) {
    let box_parts: Vec<i32> = all[0].attributes["viewBox"]
        .split(' ')
        .map(|part| part.parse().unwrap())
        .collect();
    assert_eq!(box_parts[..2], [0, 0]);
    (box_parts[2], box_parts[3])
}

/// The plan of n banks from so many tries to add a clash of banks that are at most so far apart.
fn plan_of(random: &mut Random, n: usize, tries: usize, apart: usize) -> Plan {
    let mut rows = BTreeSet::new();
    let mut degrees = vec![0; n];
    for _ in 0..tries {
        let a = random.below(n);
        let b = (a + 1 + random.below(apart)) % n;
        let (a, b) = (a.min(b), a.max(b));
        if a != b && degrees[a] < 23 && degrees[b] < 23 && rows.insert((a, b)) {
            degrees[a] += 1;
            degrees[b] += 1;
        }
    }
    let rows = rows.iter().map(|(a, b)| format!("\n+ {a} {b}"));
    let list = format!("N {n}") + &rows.collect::<String>();
    Plan::read_list(list.as_bytes()).expect("a list")
}

/// A random edit of a plan.
fn edited(random: &mut Random, before: &Plan) -> (Plan, LastEdit) {
    loop {
        let n = usize::from(before.banks());
        let (a, b) = (Bank(random.below(n) as u16), Bank(random.below(n) as u16));
        let mut after = before.clone();
        let (kind, answer) = match before.neighbours_of(a).contains(&b) {
            true => (Kind::Striking, after.strike(a, b)),
            false => (Kind::Adding, after.add(a, b)),
        };
        if let Ok(edit) = answer {
            let last = LastEdit::new(kind, a, b, before, &after, edit);
            return (after, last);
        }
    }
}

#[test]
fn m9() {
    let list = b"N 6\n+ 0 4\n+ 0 2\n+ 2 3\n+ 1 3\n+ 1 5\n+ 2 5";
    let before = Plan::read_list(list).expect("a list");
    let mut after = before.clone();
    let edit = after.strike(Bank(2), Bank(5)).expect("accepted");
    let last = LastEdit::new(Kind::Striking, Bank(2), Bank(5), &before, &after, edit);
    let all = check(&after, Some(&last), false);
    assert_eq!(all[1].text, "6 banks, 5 clashes, 3 waves, after - 2 5");
    let description = "Banks in a column for each wave, clashes as lines. \
        Banks in each wave: A 2, B 3, C 1. - 2 5: 5 taken up, 4 moved.";
    assert_eq!(all[2].text, description);
    let words: Vec<&str> = in_groups(&all, &["legend"], "text")
        .iter()
        .map(|e| e.text.as_str())
        .collect();
    let wanted = [
        "bank not taken up",
        "taken up (5)",
        "of these moved (4)",
        "named in - 2 5",
        "clash",
        "clash of two taken up",
        "clash struck",
    ];
    assert_eq!(words, wanted);
    let titles = in_groups(&all, &["banks", "taken-up", "moved"], "title");
    let titles: BTreeSet<&str> = titles.iter().map(|e| e.text.as_str()).collect();
    assert!(titles.contains("bank 0: B to A") && titles.contains("bank 5: B"));
}

#[test]
fn plans_without_an_edit() {
    let mut random = Random::new(7);
    for n in [0, 1, 64, 65, 1024] {
        check(&Plan::open(n).expect("a plan"), None, false);
    }
    check(&plan_of(&mut random, 300, 900, 299), None, true);
}

/// An edit that led to another plan is not shown.
#[test]
fn another_edit() {
    let mut random = Random::new(6);
    let plan = plan_of(&mut random, 20, 40, 19);
    let (after, last) = edited(&mut random, &plan);
    assert_ne!(svg(&after, Some(&last), false), svg(&after, None, false));
    assert_eq!(svg(&plan, Some(&last), false), svg(&plan, None, false));
    let small = Plan::open(1).expect("a plan");
    assert_eq!(svg(&small, Some(&last), false), svg(&small, None, false));
}

/// Small plans are as wide as a phone, so that their numbers are 10 pixels high there.
#[test]
fn small_plans_fit_a_phone() {
    let mut random = Random::new(8);
    let mut most_waves = 0;
    for _ in 0..40 {
        let n = random.between(2, 64);
        let (tries, apart) = (random.below(30 * n), random.between(1, n - 1));
        let plan = plan_of(&mut random, n, tries, apart);
        let (after, last) = edited(&mut random, &plan);
        let (width, height) = size(&check(&after, Some(&last), false));
        assert_eq!(width, 360);
        assert!((180..=900).contains(&height), "{n} banks: {height}");
        most_waves = most_waves.max(after.wave_count());
    }
    assert!(most_waves > 12, "{most_waves}");
}

/// However the waves are filled, a large picture is no strip.
#[test]
fn large_plans_keep_their_proportions() {
    let mut random = Random::new(9);
    let plans = [
        (1024, 2000, 1023),
        (1024, 5000, 4),
        (200, 300, 2),
        (65, 0, 1),
    ];
    for (n, tries, apart) in plans {
        let plan = plan_of(&mut random, n, tries, apart);
        let (after, last) = edited(&mut random, &plan);
        let numbers = random.one_in(2);
        let (width, height) = size(&check(&after, Some(&last), numbers));
        assert!(
            2 * width > height && 2 * height > width,
            "{n} banks: {width} by {height}"
        );
    }
}
