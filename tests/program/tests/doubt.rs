//! The built program *doubt* against the model: small depots, random lists, complete depots, refused lists
//! and banks, and wrong arguments.

use independent::lists;
use independent::random::Random;
use program_tests::{doubt_agrees_with_model, run};

/// The list of n banks with random ranks and, by one try in so many, the clash of each two.
fn depot(random: &mut Random, n: usize, one_in: usize) -> Vec<u8> {
    let mut list = format!("N {n}");
    for b in 0..n {
        if random.one_in(2) {
            list += &format!("\nK {b} {}", random.below(4));
        }
    }
    for b in 0..n {
        for a in 0..b {
            if random.one_in(one_in) {
                list += &format!("\n+ {a} {b}");
            }
        }
    }
    list.into_bytes()
}

#[test]
fn the_paper_s_four_banks() {
    let list = b"N 4\n+ 0 1\n+ 1 2\n+ 2 3\n+ 0 3";
    let told = run::doubt_program(list, &["3", "0", "2", "4"]);
    let wanted = "BANK 3 KEPT B READ B FROM 0 A FROM 2 A\nBANK 0 KEPT A READ A\n\
                  BANK 2 KEPT A READ A FROM 1 B\nBANK 4 REFUSED 4\n";
    assert_eq!(String::from_utf8_lossy(&told.output), wanted);
    assert!(told.errors.is_empty());
}

#[test]
fn depots_of_up_to_sixteen_banks() {
    let mut random = Random::new(191);
    for _ in 0..200 {
        let n = random.between(1, 16);
        let one_in = random.between(1, 4);
        let list = depot(&mut random, n, one_in);
        let banks: Vec<u16> = (0..=n as u16).collect();
        doubt_agrees_with_model(&list, &banks);
    }
}

/// All 16 banks clash: the longest lines.
#[test]
fn a_complete_depot() {
    let list = depot(&mut Random::new(192), 16, 1);
    let banks: Vec<u16> = (0..16).rev().collect();
    doubt_agrees_with_model(&list, &banks);
}

#[test]
fn more_banks() {
    for n in [17, 100, 1024] {
        doubt_agrees_with_model(format!("N {n}\n+ 0 1").as_bytes(), &[0, 16, 1024, 9999]);
    }
}

#[test]
fn refused_lists() {
    for list in lists::malformed_lists() {
        doubt_agrees_with_model(&list, &[0, 1]);
    }
    for case in lists::edges() {
        doubt_agrees_with_model(&case.list, &[0]);
    }
}

/// One line on standard error that says how to call it, and nothing on standard output.
#[test]
fn wrong_arguments() {
    let list = b"N 4\n+ 0 1";
    let wrong: [&[&str]; 8] = [
        &[],
        &[""],
        &["x"],
        &["0", "1", "-1"],
        &["0", "12345"],
        &["0", "123456789012"],
        &["1 2"],
        &["0", "", "1"],
    ];
    for arguments in wrong {
        let told = run::doubt_program(list, arguments);
        assert_eq!(told.output, b"");
        let line = String::from_utf8(told.errors).expect("ASCII");
        assert!(line.starts_with("usage: doubt BANK"), "{line}");
        assert_eq!(line.matches('\n').count(), 1);
    }
    let padded = run::doubt_program(list, &["0001"]);
    assert_eq!(padded.output, b"BANK 1 KEPT B READ B FROM 0 A\n");
}
