//! The built program *poster* against the model and against the rule: bank counts and waves at the
//! edges of lines and pages, refused lists, random lists.

use independent::lists;
use independent::random::Random;
use program_tests::{poster_agrees_with_model, run};

/// The list of n banks of which the first `clique` all clash with each other.
fn list(n: usize, clique: usize) -> Vec<u8> {
    let clashes = (0..clique).flat_map(|a| (0..a).map(move |b| format!("\n+ {b} {a}")));
    format!("N {n}{}", clashes.collect::<String>()).into_bytes()
}

/// The lines that are not of spaces only.
fn lines(poster: &[u8]) -> usize {
    poster
        .chunks(41)
        .filter(|line| line[..40] != [b' '; 40])
        .count()
}

#[test]
fn one_wave_of_any_size() {
    for n in 0..=1024 {
        let list = list(n, 0);
        poster_agrees_with_model(&list);
        assert_eq!(lines(&run::poster_program(&list)), (n + 6) / 7 + 1);
    }
}

/// No bank, and the foot on its page; nine banks of which 0 and 8 clash.
#[test]
fn pages_of_no_bank_and_of_nine() {
    let page = run::poster_program(b"N 0");
    assert_eq!(page[..10], *b"TOTAL 0 0 ");
    assert_eq!((page.len(), lines(&page)), (2050, 1));
    poster_agrees_with_model(b"N 9\n+ 0 8");
    let page = run::poster_program(b"N 9\n+ 0 8");
    assert_eq!(page[..8], *b"A     0 ");
    assert_eq!(page[41..49], *b"      7 ");
    assert_eq!(page[82..90], *b"B     8 ");
    assert_eq!(page[123..133], *b"TOTAL 9 1 ");
    assert_eq!((page.len(), lines(&page)), (2050, 4));
}

/// 24 waves: of one bank each, and with a first wave of up to 1,001 banks.
#[test]
fn waves_of_few_banks_and_of_many() {
    for clique in 2..=24 {
        for n in [
            clique,
            clique + 6,
            clique + 7,
            clique + 13,
            182,
            183,
            350,
            351,
            1024,
        ] {
            poster_agrees_with_model(&list(n, clique));
        }
    }
    let longest = run::poster_program(&list(1024, 24));
    assert_eq!((longest.len(), lines(&longest)), (8200, 167));
}

/// Lists whose waves and foot take exactly 50 and 51 lines.
#[test]
fn a_full_page_and_a_line_more() {
    let lists = [
        (343, 1, 50, 1),
        (344, 1, 51, 2),
        (205, 24, 50, 1),
        (206, 24, 51, 2),
    ];
    for (n, clique, count, pages) in lists {
        let list = list(n, clique);
        poster_agrees_with_model(&list);
        let poster = run::poster_program(&list);
        assert_eq!((poster.len(), lines(&poster)), (2050 * pages, count));
    }
}

#[test]
fn edges_and_malformed_lists() {
    for case in lists::edges() {
        poster_agrees_with_model(&case.list);
    }
    for list in lists::malformed_lists() {
        poster_agrees_with_model(&list);
    }
    for (list, _, _) in lists::late_ranks() {
        poster_agrees_with_model(&list);
    }
}

#[test]
fn random_lists() {
    let mut random = Random::new(54);
    for _ in 0..1000 {
        poster_agrees_with_model(&lists::random_list(&mut random));
    }
    poster_agrees_with_model(&lists::long_list(&mut random));
}
