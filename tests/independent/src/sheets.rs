//! Sheets for the tests, the same in each run: those of any waves, of waves that keep clashing banks apart,
//! of the fewest waves, and bytes near to a sheet.

use crate::graph::{number_of_waves, Bank, Graph, Wave};
use crate::plan::WAVES;
use crate::random::Random;
use crate::ranks::shuffled;
use crate::sheet::LETTERS;

/// Bytes that damage a sheet more cunningly than any bytes do.
const LIKELY_BYTES: &[u8] = b"\n \t\r\0W0123456789ABCIOZabT-+\x80\xff";

/// Waves of n banks, at most so many, none empty below the highest.
pub fn any_waves(random: &mut Random, n: usize, most: usize) -> Vec<Wave> {
    let k = random.between(1, most.clamp(1, WAVES).min(n.max(1)));
    let waves = (0..n).map(|b| if b < k { b } else { random.below(k) });
    let waves: Vec<Wave> = waves.collect();
    let places = shuffled(random, n);
    places.into_iter().map(|place| waves[place]).collect()
}

/// Waves that keep clashing banks apart: each bank, in any order, gets the lowest that is free, and the
/// waves then get any letters.
pub fn other_waves(random: &mut Random, graph: &Graph) -> Vec<Wave> {
    let waves = waves_in_order(graph, &shuffled(random, graph.banks()));
    let letters = shuffled(random, number_of_waves(&waves));
    waves.into_iter().map(|wave| letters[wave]).collect()
}

/// Greedy waves in any order of the banks.
fn waves_in_order(graph: &Graph, order: &[Bank]) -> Vec<Wave> {
    let mut waves = vec![WAVES; graph.banks()];
    for &b in order {
        let free = |&wave: &Wave| graph.neighbours(b).all(|q| waves[q] != wave);
        waves[b] = (0..WAVES).find(free).expect("at most 23 clashes");
    }
    waves
}

/// Waves that keep clashing banks apart, as few as can be, found by search: for few banks.
pub fn fewest_waves(graph: &Graph) -> Vec<Wave> {
    let mut waves = vec![WAVES; graph.banks()];
    let found = (0..=WAVES).find(|&k| fill(graph, k, 0, &mut waves));
    found.expect("a wave for each bank is enough");
    waves
}

/// Gives banks from b on a wave below k each, if that can be. A new wave is the next one.
fn fill(graph: &Graph, k: usize, b: Bank, waves: &mut [Wave]) -> bool {
    if b == graph.banks() {
        return true;
    }
    let next = number_of_waves(&waves[..b]);
    for wave in 0..k.min(next + 1) {
        if graph.neighbours(b).all(|q| q > b || waves[q] != wave) {
            waves[b] = wave;
            if fill(graph, k, b + 1, waves) {
                return true;
            }
        }
    }
    false
}

/// The bytes with one byte changed, dropped or added, at each of so many places.
pub fn one_byte_off(sheet: &[u8], places: impl IntoIterator<Item = usize>) -> Vec<Vec<u8>> {
    let spliced = |place: usize, out: usize, byte: &[u8]| {
        [&sheet[..place], byte, &sheet[place + out..]].concat()
    };
    let mut near = Vec::new();
    for place in places {
        if place < sheet.len() {
            near.push(spliced(place, 1, &[]));
            for byte in [sheet[place] ^ 1, sheet[place].wrapping_add(1)] {
                near.push(spliced(place, 1, &[byte]));
            }
            near.extend(LIKELY_BYTES.iter().map(|&byte| spliced(place, 1, &[byte])));
        }
        near.extend(LIKELY_BYTES.iter().map(|&byte| spliced(place, 0, &[byte])));
    }
    near.retain(|bytes| bytes != sheet);
    near
}

/// The text of lines of banks, whatever they are, with a foot: no bank need stand there once.
pub fn text_of(lines: &[Vec<Bank>], n: usize, clashes: usize) -> String {
    let mut text = format!("WAVES {}\n", lines.len());
    for (line, letter) in lines.iter().zip(LETTERS.chars().cycle()) {
        text.push(letter);
        text.extend(line.iter().map(|bank| format!(" {bank}")));
        text.push('\n');
    }
    text + &format!("TOTAL {n} {clashes}\n")
}

/// The banks by wave.
pub fn lines_of(waves: &[Wave]) -> Vec<Vec<Bank>> {
    let mut lines = vec![Vec::new(); number_of_waves(waves)];
    for (bank, &wave) in waves.iter().enumerate() {
        lines[wave].push(bank);
    }
    lines
}

/// Texts in the form of a sheet, few of which are one of these banks: other lines, another first line or
/// foot, bytes after the foot.
pub fn wrong_sheets(random: &mut Random, waves: &[Wave], clashes: usize) -> Vec<Vec<u8>> {
    let n = waves.len();
    let lines = lines_of(waves);
    let whole = text_of(&lines, n, clashes);
    let (_, below) = whole.split_once('\n').expect("its first line");
    let mut wrong: Vec<String> = wrong_lines(random, &lines, n)
        .iter()
        .map(|lines| text_of(lines, n, clashes))
        .collect();
    for (one, other) in [(n + 1, clashes), (n, clashes + 1), (clashes, n)] {
        wrong.push(text_of(&lines, one, other));
    }
    for k in [0, 1, lines.len() + 1, lines.len() + 10, 25, 1024] {
        wrong.push(format!("WAVES {k}\n{below}"));
    }
    for head in [
        "WAVES 0",
        "waves 1\n",
        "WAVES \n",
        "WAVES\n",
        "WAVES 01\n",
        "",
    ] {
        wrong.push(format!("{head}{below}"));
    }
    for end in ["\n", "A", "TOTAL 0 0\n", " "] {
        wrong.push(format!("{whole}{end}"));
    }
    wrong.retain(|text| *text != whole);
    wrong.into_iter().map(String::into_bytes).collect()
}

/// Lines of banks, changed: a bank twice, in one wave or in two, missing, not there or out of order, an empty
/// wave, too many waves.
fn wrong_lines(random: &mut Random, lines: &[Vec<Bank>], n: usize) -> Vec<Vec<Vec<Bank>>> {
    let mut wrong = Vec::new();
    let mut with = |change: &mut dyn FnMut(&mut Vec<Vec<Bank>>)| {
        let mut lines = lines.to_vec();
        change(&mut lines);
        wrong.push(lines);
    };
    with(&mut |lines| lines.push(Vec::new()));
    with(&mut |lines| lines.insert(0, Vec::new()));
    with(&mut |lines| lines.resize(25, vec![n]));
    if n == 0 {
        return wrong;
    }
    let (wave, other) = (random.below(lines.len()), random.below(lines.len()));
    let place = random.below(lines[wave].len());
    let bank = lines[wave][place];
    with(&mut |lines| lines[wave].insert(place, bank));
    with(&mut |lines| lines[wave].push(bank));
    with(&mut |lines| {
        let at = lines[other].partition_point(|&b| b < bank);
        lines[other].insert(at, bank);
    });
    with(&mut |lines| lines[wave].retain(|&b| b != bank));
    with(&mut |lines| lines[0].truncate(1));
    with(&mut |lines| lines.truncate(wave));
    with(&mut |lines| lines[wave][place] = random.below(n + 2));
    with(&mut |lines| lines[wave][place] = n);
    for none in [n, 1024, 9999, 10_000, 65_536] {
        with(&mut |lines| lines[wave].push(none));
    }
    with(&mut |lines| lines[wave].reverse());
    with(&mut |lines| lines[wave].rotate_left(1));
    with(&mut |lines| lines.swap(wave, other));
    wrong
}
