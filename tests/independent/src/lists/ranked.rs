//! K rows in every place, and lists of one depot under two numberings.

use super::drawn::accepted_rows;
use crate::graph::Bank;
use crate::random::Random;
use crate::ranks::{different_ranks, shuffled};

/// Lists in which a K row comes somewhere: before the first edit it is accepted or gets 4, after it
/// 18, whatever bank it names. Each with the number that its K row gets and the row's number.
pub fn late_ranks() -> Vec<(Vec<u8>, u16, usize)> {
    let edits = ["+ 0 1", "+ 1 2", "- 0 1", "D 3", "D 1", "+ 2 0"];
    let before = ["", "\nK 2 7", "\nK 2 7\nK 0 9999\nK 2 0"];
    let mut lists = Vec::new();
    for ranks in before {
        for (place, made) in (0..=edits.len()).map(|place| (place, edits[..place].to_vec())) {
            let rows: String = made.iter().map(|row| format!("\n{row}")).collect();
            let front = format!("N 4{ranks}{rows}");
            let row = front.split('\n').count() + 1;
            for (bank, there) in [(0, true), (3, true), (4, false), (9999, false)] {
                let number = match (place, there) {
                    (0, true) => 0,
                    (0, false) => 4,
                    _ => 18,
                };
                for rest in ["", "\n", "\n+ 0 3", "\nK 1 1\n- 1 2"] {
                    let list = format!("{front}\nK {bank} 5{rest}");
                    lists.push((list.into_bytes(), number, row));
                }
            }
        }
    }
    lists
}

/// The list of a depot, the list of the same depot with its banks renumbered and their ranks kept,
/// and the new number of each bank.
pub struct Renumbered {
    pub list: Vec<u8>,
    pub other: Vec<u8>,
    pub numbers: Vec<Bank>,
}

/// A depot of up to so many banks, at least one, under two numberings. No two banks have the same
/// rank. Both lists are accepted.
pub fn renumbered(random: &mut Random, most: usize) -> Renumbered {
    let n = random.between(1, most);
    let (hot, draws) = (random.between(2, 40), random.below(8 * n));
    let ranks = different_ranks(random, n);
    let mut rows: Vec<String> = shuffled(random, n)
        .into_iter()
        .map(|b| format!("K {b} {}", ranks[b]))
        .collect();
    rows.extend(accepted_rows(random, n, hot, draws));
    let numbers = shuffled(random, n);
    let new_rows: Vec<String> = rows.iter().map(|row| with_numbers(row, &numbers)).collect();
    let list = |rows: &[String]| format!("N {n}\n{}", rows.join("\n")).into_bytes();
    Renumbered {
        list: list(&rows),
        other: list(&new_rows),
        numbers,
    }
}

/// The row with new numbers for its banks. The last part of a K row is no bank.
fn with_numbers(row: &str, numbers: &[Bank]) -> String {
    let banks = if row.starts_with('K') { 1..2 } else { 1..3 };
    let part = |(place, part): (usize, &str)| match part.parse::<Bank>() {
        Ok(b) if banks.contains(&place) => numbers[b].to_string(),
        _ => part.to_string(),
    };
    let parts: Vec<String> = row.split(' ').enumerate().map(part).collect();
    parts.join(" ")
}
