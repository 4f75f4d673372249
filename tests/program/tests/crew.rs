//! The built program *crew* against the model: random depots of all sizes, the most banks, refused lists,
//! crews and limits out of their spans, and wrong arguments.

use independent::crew::Asked::{Couriers, Within};
use independent::lists;
use independent::random::Random;
use program_tests::{crew_agrees_with_model, run};

/// The list of n banks with random ranks and so many tries to add a clash, no bank with more than 23.
fn depot(random: &mut Random, n: usize, tries: usize) -> Vec<u8> {
    let mut list = format!("N {n}");
    for b in 0..n {
        if random.one_in(4) {
            list += &format!("\nK {b} {}", random.below(4));
        }
    }
    let mut clashes = vec![vec![]; n];
    for _ in 0..tries {
        let (a, b) = (random.below(n), random.below(n));
        let room = clashes[a].len() < 23 && clashes[b].len() < 23;
        if a != b && room && !clashes[a].contains(&b) {
            clashes[a].push(b);
            clashes[b].push(a);
            list += &format!("\n+ {a} {b}");
        }
    }
    list.into_bytes()
}

#[test]
fn the_paper_s_four_banks() {
    let list = b"N 4\n+ 0 1\n+ 1 2\n+ 2 3\n+ 0 3";
    let printed = |arguments: &[&str]| {
        let told = run::crew_program(list, arguments);
        assert!(told.errors.is_empty());
        String::from_utf8(told.output).expect("ASCII")
    };
    assert_eq!(printed(&["1"]), "1 A 0\n2 A 2\n3 B 1\n4 B 3\n");
    assert_eq!(printed(&["2"]), "1 A 0 2\n2 B 1 3\n");
    assert_eq!(printed(&["64"]), "1 A 0 2\n2 B 1 3\n");
    assert_eq!(printed(&["within", "3"]), "CREW 2\n1 A 0 2\n2 B 1 3\n");
    assert_eq!(
        printed(&["within", "0004"]),
        "CREW 1\n1 A 0\n2 A 2\n3 B 1\n4 B 3\n"
    );
    assert_eq!(printed(&["within", "1"]), "WITHIN 1 REFUSED 25\n");
    assert_eq!(printed(&["0"]), "CREW 0 REFUSED 24\n");
    assert_eq!(printed(&["0065"]), "CREW 65 REFUSED 24\n");
    assert_eq!(printed(&["within", "1025"]), "WITHIN 1025 REFUSED 24\n");
}

#[test]
fn depots_of_up_to_sixty_banks() {
    let mut random = Random::new(241);
    for _ in 0..100 {
        let n = random.between(1, 60);
        let tries = random.below(4 * n);
        let list = depot(&mut random, n, tries);
        for couriers in [1, random.between(2, 9), random.between(2, 64), 64] {
            crew_agrees_with_model(&list, Couriers(couriers as u16));
        }
        for limit in [random.below(9), random.below(n + 1), n, 1024] {
            crew_agrees_with_model(&list, Within(limit as u16));
        }
    }
}

#[test]
fn depots_of_many_banks() {
    let mut random = Random::new(242);
    for n in [300, 1023, 1024] {
        let list = depot(&mut random, n, 400);
        crew_agrees_with_model(&list, Couriers(random.between(1, 64) as u16));
        crew_agrees_with_model(&list, Within(random.between(20, 200) as u16));
    }
}

/// The most banks, in one wave: the longest lines, and the most of them.
#[test]
fn the_most_banks() {
    for couriers in [1, 2, 10, 63, 64] {
        crew_agrees_with_model(b"N 1024", Couriers(couriers));
    }
    for limit in [0, 15, 16, 17, 1023, 1024] {
        crew_agrees_with_model(b"N 1024", Within(limit));
    }
}

/// 24 banks that all clash: a step for each letter.
#[test]
fn all_letters() {
    let mut list = b"N 24".to_vec();
    for b in 0..24 {
        for a in 0..b {
            list.extend(format!("\n+ {a} {b}").into_bytes());
        }
    }
    for asked in [Couriers(1), Couriers(64), Within(24), Within(23)] {
        crew_agrees_with_model(&list, asked);
    }
}

#[test]
fn no_banks() {
    for asked in [Couriers(1), Couriers(64), Within(0), Within(1024)] {
        crew_agrees_with_model(b"N 0", asked);
    }
}

#[test]
fn out_of_span() {
    for number in [0, 65, 100, 1024, 1025, 9999] {
        for list in [&b"N 0"[..], b"N 3", b"N 3\n+ 0 1\n"] {
            crew_agrees_with_model(list, Couriers(number));
            crew_agrees_with_model(list, Within(number));
        }
    }
}

/// The list's refusal comes first, whatever is asked.
#[test]
fn refused_lists() {
    for list in lists::malformed_lists() {
        crew_agrees_with_model(&list, Couriers(2));
    }
    for case in lists::edges() {
        for asked in [Couriers(2), Couriers(65), Within(9), Within(1025)] {
            crew_agrees_with_model(&case.list, asked);
        }
    }
}

/// One line on standard error that says how to call it, and nothing on standard output.
#[test]
fn wrong_arguments() {
    let list = b"N 4\n+ 0 1";
    let wrong: [&[&str]; 20] = [
        &[],
        &[""],
        &["x"],
        &["-1"],
        &["+1"],
        &["12345"],
        &["123456789012"],
        &["1 2"],
        &["1", "2"],
        &["1", "within"],
        &["within"],
        &["within", ""],
        &["within", "x"],
        &["within", "12345"],
        &["within", "1", "2"],
        &["Within", "3"],
        &["withi", "3"],
        &["within ", "3"],
        &["withinwithin", "3"],
        &["", "3"],
    ];
    for arguments in wrong {
        let told = run::crew_program(list, arguments);
        assert_eq!(told.output, b"");
        let line = String::from_utf8(told.errors).expect("ASCII");
        assert!(line.starts_with("usage: crew "), "{line}");
        assert_eq!(line.matches('\n').count(), 1);
    }
}
