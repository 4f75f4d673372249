//! Reads the waves and the foot off a printed sheet or poster and holds the waves against the rule,
//! bank by bank, and the foot against what stands above it and the clashes. The clashes and the ranks
//! come straight from the rows of the accepted list; nothing of the model is used.

use std::collections::BTreeSet;

const LETTERS: &[u8; 24] = b"ABCDEFGHJKLMNPQRSTUVWXYZ";

/// The sheet printed for an accepted list shows the rule wave of each bank, and its foot adds up.
pub fn sheet_follows_rule(list: &[u8], sheet: &[u8]) {
    let (banks, foot) = lines_of_sheet(text(sheet));
    follows_rule(list, &banks, foot);
}

/// The poster printed for an accepted list shows the rule wave of each bank, and its foot adds up.
pub fn poster_follows_rule(list: &[u8], poster: &[u8]) {
    let (banks, foot) = lines_of_poster(text(poster));
    follows_rule(list, &banks, foot);
}

/// The waves by bank number that the sheet of n banks shows.
pub fn waves_on_sheet(sheet: &[u8], n: usize) -> Vec<usize> {
    waves_of(&lines_of_sheet(text(sheet)).0, n)
}

/// The banks by wave are the rule's, and the foot counts banks and clashes.
fn follows_rule(list: &[u8], banks: &[Vec<usize>], foot: &str) {
    let Depot { ranks, clashes } = depot_of(text(list));
    let n = ranks.len();
    let shown: usize = banks.iter().map(Vec::len).sum();
    assert_eq!(foot, format!("TOTAL {shown} {}", clashes.len()));
    let waves = waves_of(banks, n);
    let near: Vec<BTreeSet<usize>> = (0..n).map(|b| near(b, &clashes)).collect();
    for b in 0..n {
        let earlier = |&&q: &&usize| {
            let (of_q, of_b) = (near[q].len(), near[b].len());
            of_q > of_b || (of_q == of_b && (ranks[q], q) < (ranks[b], b))
        };
        let held: BTreeSet<usize> = near[b].iter().filter(earlier).map(|&q| waves[q]).collect();
        assert!(
            !held.contains(&waves[b]),
            "an earlier neighbour of {b} holds its wave"
        );
        assert!(
            (0..waves[b]).all(|w| held.contains(&w)),
            "a lower wave is free for {b}"
        );
    }
}

fn text(bytes: &[u8]) -> &str {
    std::str::from_utf8(bytes).expect("ASCII")
}

/// The ranks by bank number and the clashes, smaller bank first, that an accepted list ends in.
struct Depot {
    ranks: Vec<usize>,
    clashes: BTreeSet<(usize, usize)>,
}

fn depot_of(list: &str) -> Depot {
    let mut clashes = BTreeSet::new();
    let mut ranks = Vec::new();
    let mut edited = false;
    let v2 = list.strip_prefix("V 2\n");
    for row in v2.unwrap_or(list).split_terminator('\n') {
        let numbers = row.split(' ').skip(1);
        let numbers: Vec<usize> = numbers
            .map(|part| part.parse().expect("a number"))
            .collect();
        match (&row[..1], &numbers[..]) {
            ("N", &[banks]) => ranks = vec![0; banks],
            ("K", &[b, rank]) => {
                assert!(!edited, "ranks come before the edits");
                ranks[b] = rank;
            }
            ("+", &[a, b]) => assert!(clashes.insert((a.min(b), a.max(b)))),
            ("-", &[a, b]) => assert!(clashes.remove(&(a.min(b), a.max(b)))),
            ("D", &[b]) if v2.is_none() => clashes.retain(|&(p, q)| p != b && q != b),
            _ => panic!("accepted: {row}"),
        }
        edited |= ["+", "-", "D"].contains(&&row[..1]);
    }
    Depot { ranks, clashes }
}

/// The banks that clash with b.
fn near(b: usize, clashes: &BTreeSet<(usize, usize)>) -> BTreeSet<usize> {
    let other = |&(p, q): &(usize, usize)| match b {
        _ if b == p => Some(q),
        _ if b == q => Some(p),
        _ => None,
    };
    clashes.iter().filter_map(other).collect()
}

/// The waves by bank number, of the banks by wave: each of n banks once, ascending in its wave.
fn waves_of(banks: &[Vec<usize>], n: usize) -> Vec<usize> {
    let mut waves = vec![None; n];
    for (wave, banks) in banks.iter().enumerate() {
        assert!(!banks.is_empty(), "an empty wave");
        assert!(banks.windows(2).all(|pair| pair[0] < pair[1]), "ascending");
        for &b in banks {
            assert_eq!(waves[b].replace(wave), None, "bank {b} stands once");
        }
    }
    waves
        .into_iter()
        .map(|wave| wave.expect("each bank stands"))
        .collect()
}

/// The banks by wave that a sheet shows, and its foot. Checks its form: one space before each bank, a
/// line for each wave.
fn lines_of_sheet(sheet: &str) -> (Vec<Vec<usize>>, &str) {
    assert!(sheet.ends_with('\n'));
    let lines: Vec<&str> = sheet.split_terminator('\n').collect();
    let last = lines.len() - 1;
    assert_eq!(lines[0], format!("WAVES {}", last - 1));
    let waves = lines[1..last].iter().zip(LETTERS);
    let waves = waves.map(|(line, &letter)| banks_on(line, letter));
    (waves.collect(), lines[last])
}

/// The banks by wave that a poster shows, and its foot. Checks its form: pages of 50 lines of 40
/// characters; above the foot each has a letter or a space, a space, up to seven banks right-aligned
/// in five columns and spaces; below it fewer than 50 of spaces alone.
fn lines_of_poster(poster: &str) -> (Vec<Vec<usize>>, &str) {
    assert_eq!(poster.len() % (50 * 41), 0, "whole pages");
    let lines: Vec<&str> = poster.split_terminator('\n').collect();
    assert_eq!(41 * lines.len(), poster.len());
    assert!(lines.iter().all(|line| line.len() == 40));
    let foot = lines.iter().position(|line| line.starts_with("TOTAL "));
    let foot = foot.expect("a foot");
    let blank = &lines[foot + 1..];
    assert!(blank.len() < 50, "a page too many");
    assert!(blank.iter().all(|line| line.trim_end().is_empty()));
    let mut waves: Vec<Vec<usize>> = Vec::new();
    for line in &lines[..foot] {
        let banks = columns(line);
        assert!(!banks.is_empty(), "a line without a bank");
        match line.as_bytes()[0] {
            b' ' => waves.last_mut().expect("a wave before it").extend(banks),
            letter => {
                assert_eq!(letter, LETTERS[waves.len()]);
                waves.push(banks);
            }
        }
    }
    (waves, lines[foot].trim_end())
}

/// The banks in the columns of a poster's line. Only the last ones may be empty.
fn columns(line: &str) -> Vec<usize> {
    let banks = line[2..].trim_end();
    assert_eq!(&line[1..2], " ");
    assert_eq!(banks.len() % 5, 0);
    assert!(banks.len() <= 35);
    let bank = |columns: &[u8]| {
        let columns = text(columns);
        let bank: usize = columns.trim_start().parse().expect("a bank number");
        assert_eq!(
            format!("{bank:5}"),
            columns,
            "right-aligned, no zeros in front"
        );
        bank
    };
    banks.as_bytes().chunks(5).map(bank).collect()
}

/// The banks on the line of a wave, in their order.
fn banks_on(line: &str, letter: u8) -> Vec<usize> {
    let mut parts = line.split(' ');
    assert_eq!(parts.next().map(str::as_bytes), Some(&[letter][..]));
    let bank = |part: &str| {
        let bank: usize = part.parse().expect("a bank number");
        assert_eq!(bank.to_string(), part, "no zeros in front");
        bank
    };
    parts.map(bank).collect()
}
