//! The built program *sheet* against the model and against the rule: edges, malformed rows, rows one byte
//! away from a good one, K rows in every place, renumbered depots, random lists and a list of nearly
//! 60,000 bytes.

use independent::lists;
use independent::random::Random;
use program_tests::{agrees_with_model, read_back, run};

#[test]
fn edges_print_what_is_set_down() {
    for case in lists::edges() {
        let printed = run::sheet_program(&case.list);
        assert_eq!(
            printed.escape_ascii().to_string(),
            case.output.escape_default().to_string(),
            "{}",
            case.name
        );
        agrees_with_model(&case.list);
    }
}

#[test]
fn malformed_lists() {
    for list in lists::malformed_lists() {
        agrees_with_model(&list);
    }
}

#[test]
fn lists_one_byte_away_from_a_good_one() {
    for list in lists::near_lists() {
        agrees_with_model(&list);
    }
}

#[test]
fn k_rows_in_every_place() {
    for (list, number, row) in lists::late_ranks() {
        agrees_with_model(&list);
        if number != 0 {
            let refusal = format!("REFUSED {number} ROW {row}\n");
            assert_eq!(run::sheet_program(&list), refusal.as_bytes());
        }
    }
}

/// A depot under two numberings, all ranks different: each bank stands in the same wave.
#[test]
fn renumbered_depots() {
    let mut random = Random::new(55);
    for round in 0..200 {
        let most = if round % 20 == 19 { 300 } else { 40 };
        let depot = lists::renumbered(&mut random, most);
        let n = depot.numbers.len();
        let [one, other] = [&depot.list, &depot.other].map(|list| {
            agrees_with_model(list);
            read_back::waves_on_sheet(&run::sheet_program(list), n)
        });
        for (b, &new) in depot.numbers.iter().enumerate() {
            assert_eq!(one[b], other[new], "bank {b}, now {new}");
        }
    }
}

#[test]
fn lists_cut_at_each_byte() {
    let mut random = Random::new(51);
    for _ in 0..3 {
        let list = lists::random_list(&mut random);
        for length in 0..list.len().min(200) {
            agrees_with_model(&list[..length]);
        }
    }
}

#[test]
fn random_lists() {
    let mut random = Random::new(52);
    for _ in 0..2000 {
        agrees_with_model(&lists::random_list(&mut random));
    }
}

/// Lists of the most banks, with K rows and without.
#[test]
fn long_lists() {
    let mut random = Random::new(53);
    let mut ranked = [false, false];
    for _ in 0..4 {
        let list = lists::long_list(&mut random);
        assert!(list.len() > 59_980);
        ranked[usize::from(list.contains(&b'K'))] = true;
        agrees_with_model(&list);
    }
    assert_eq!(ranked, [true, true]);
}
