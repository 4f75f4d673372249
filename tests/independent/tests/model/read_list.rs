//! Reading a list: rows and their forms, numbers and rows of refusals, and what memory holds
//! afterwards.

use crate::support::{memory_of, opened};
use independent::graph::Graph;
use independent::list::{later_row, n_row, rows, rows_before_n, Row};
use independent::lists;
use independent::memory::Memory;
use independent::random::Random;
use independent::sheet::program_output;

/// Reads a list with memory for 30 banks. The answer is number, row and memory.
fn read(list: &[u8]) -> (u16, usize, Memory) {
    let mut memory = Memory::filled(30, 999);
    let answer = memory.read_list(list);
    (answer.number, answer.row, memory)
}

/// A list that is refused on its N row or before, and so changes nothing.
fn refused_at_once(list: &[u8], number: u16, row: usize) {
    let (got, at, memory) = read(list);
    assert_eq!(
        (got, at),
        (number, row),
        "{:?}",
        String::from_utf8_lossy(list)
    );
    assert_eq!(memory, Memory::filled(30, 999));
}

/// A list that is refused at a later row leaves what the rows before leave.
fn refused_later(list: &[u8], number: u16, row: usize) {
    let (got, at, memory) = read(list);
    let shown = String::from_utf8_lossy(list);
    assert_eq!((got, at), (number, row), "{shown:?}");
    let before: Vec<&[u8]> = rows(list)[..row - 1].to_vec();
    let (accepted, _, wanted) = read(&before.join(&b'\n'));
    assert_eq!(accepted, 0);
    assert_eq!(memory, wanted, "{shown:?}");
}

#[test]
fn rows_end_at_line_feeds_and_at_the_end() {
    let none: [&[u8]; 0] = [];
    assert_eq!(rows(b""), none);
    assert_eq!(rows(b"\n"), [b""]);
    assert_eq!(rows(b"a"), [b"a"]);
    assert_eq!(rows(b"a\n"), [b"a"]);
    assert_eq!(rows(b"a\nb"), [b"a", b"b"]);
    assert_eq!(rows(b"a\nb\n"), [b"a", b"b"]);
    assert_eq!(rows(b"a\n\n"), [b"a".as_slice(), b""]);
    assert_eq!(rows(b"\na"), [b"".as_slice(), b"a"]);
}

#[test]
fn what_a_row_says() {
    for (row, banks) in [
        (b"N 0".as_slice(), Some(0)),
        (b"N 4", Some(4)),
        (b"N 0004", Some(4)),
        (b"N 00", Some(0)),
        (b"N 9999", Some(9999)),
        (b"N 10000", None),
        (b"N 00005", None),
        (b"N 5a", None),
        (b"N ", None),
        (b"N 4 ", None),
        (b"", None),
    ] {
        assert_eq!(n_row(row), banks, "{:?}", String::from_utf8_lossy(row));
    }
    for (row, edit) in [
        (b"+ 0 1".as_slice(), Some(Row::Add(0, 1))),
        (b"- 0 1", Some(Row::Strike(0, 1))),
        (b"D 3", Some(Row::StrikeAll(3))),
        (b"+ 05 1", Some(Row::Add(5, 1))),
        (b"K 3 9999", Some(Row::Rank(3, 9999))),
        (b"K 0003 0000", Some(Row::Rank(3, 0))),
        (b"K 3 10000", None),
        (b"K 3", None),
        (b"k 3 1", None),
        (b"+ 0  1", None),
        (b"+ 0 1 ", None),
        (b"N 4", None),
        (b"", None),
    ] {
        assert_eq!(later_row(row), edit, "{:?}", String::from_utf8_lossy(row));
    }
}

#[test]
fn a_list_does_what_its_calls_do() {
    let (number, row, by_list) = read(b"N 6\n+ 0 4\n+ 0 2\n+ 2 3\n+ 1 3\n+ 1 5\n+ 2 5\n- 2 5\n");
    assert_eq!((number, row), (0, 0));
    let mut by_calls = Memory::filled(30, 999);
    by_calls.open(6);
    for (a, b) in [(0, 4), (0, 2), (2, 3), (1, 3), (1, 5), (2, 5)] {
        by_calls.add(a, b);
    }
    by_calls.strike(2, 5);
    assert_eq!(by_list, by_calls);
    assert_eq!(by_list.trail[..5], [0, 2, 3, 4, 5]);
    assert_eq!(by_list.waves[..6], [0, 0, 1, 2, 1, 1]);
}

#[test]
fn the_last_row_counts_without_a_line_feed() {
    let (_, _, without) = read(b"N 3\n+ 1 2");
    let (_, _, with) = read(b"N 3\n+ 1 2\n");
    assert_eq!(without, with);
    assert_eq!(with.tally.clashes, 1);
}

#[test]
fn a_d_row_strikes_lowest_neighbour_first() {
    let (number, _, by_list) = read(b"N 5\n+ 2 4\n+ 2 0\n+ 2 3\n+ 3 4\nD 2");
    assert_eq!(number, 0);
    let mut by_calls = Memory::filled(30, 999);
    by_calls.open(5);
    for (a, b) in [(2, 4), (2, 0), (2, 3), (3, 4)] {
        by_calls.add(a, b);
    }
    for q in [0, 3, 4] {
        assert_eq!(by_calls.strike(2, q).number, 0);
    }
    assert_eq!(by_list, by_calls);
    assert!(by_list.clashes_of(2).is_empty());
    assert_eq!(by_list.clashes_of(3), [4]);
}

#[test]
fn a_d_row_without_clashes_does_nothing() {
    let (number, row, after) = read(b"N 3\n+ 0 1\nD 2\nD 2");
    assert_eq!((number, row), (0, 0));
    assert_eq!(after, read(b"N 3\n+ 0 1").2);
}

#[test]
fn a_list_without_edits_leaves_trail_and_moved() {
    for list in [
        b"N 20".as_slice(),
        b"N 20\n",
        b"N 20\nD 7\n",
        b"N 20\n+ 3 3\n",
    ] {
        let (_, _, memory) = read(list);
        assert_eq!(memory.tally.banks, 20);
        assert_eq!(memory.trail, [999; 30]);
        assert_eq!(memory.moved, [999; 30]);
    }
}

#[test]
fn each_edit_writes_only_the_front_of_trail_and_moved() {
    let (_, _, memory) =
        read(b"N 4\n+ 0 1\n+ 1 2\n+ 2 3\n+ 0 3\n- 1 2\n+ 1 2\n- 0 3\n+ 0 2\n- 0 2");
    let mut by_calls = opened(4, &[(0, 1), (1, 2), (2, 3)]);
    by_calls.add(0, 3);
    assert_eq!(by_calls.trail, [0, 1, 2, 3]);
    by_calls.strike(1, 2);
    by_calls.add(1, 2);
    by_calls.strike(0, 3);
    by_calls.add(0, 2);
    let last = by_calls.strike(0, 2);
    assert!(last.moved < 4, "cells after the count are left");
    assert_eq!(memory.trail[..4], by_calls.trail);
    assert_eq!(memory.moved[..4], by_calls.moved);
}

#[test]
fn numbers_and_rows_of_row_1() {
    refused_at_once(b"", 10, 1);
    refused_at_once(b"\n", 10, 1);
    refused_at_once(b"+ 0 1", 10, 1);
    refused_at_once(b"\nN 4", 10, 1);
    refused_at_once(b"N 1025", 1, 1);
    refused_at_once(b"N 9999\n+ 0 1", 1, 1);
    refused_at_once(b"N 10000", 10, 1);
    refused_at_once(b"N 31", 2, 1);
    refused_at_once(b"N 1024", 2, 1);
    refused_at_once(&[b'?'; 60_001], 9, 0);
    refused_at_once(&[b'?'; 60_000], 10, 1);
    let long = [b"N 2\n".as_slice(), &[b' '; 59_997]].concat();
    refused_at_once(&long, 9, 0);
    refused_later(&long[..60_000], 11, 2);
}

#[test]
fn numbers_and_rows_after_v2() {
    refused_at_once(b"V 2", 10, 2);
    refused_at_once(b"V 2\n", 10, 2);
    refused_at_once(b"V 2\nV 2\nN 4", 10, 2);
    refused_at_once(b"V 2\n\nN 4", 10, 2);
    refused_at_once(b"V 2\nN 1025", 1, 2);
    refused_at_once(b"V 2\nN 31", 2, 2);
    refused_at_once(b"V 02\nN 4", 10, 1);
    refused_at_once(b"V  2\nN 4", 10, 1);
    refused_at_once(b"V 2 \nN 4", 10, 1);
    refused_at_once(b"\nV 2\nN 4", 10, 1);
    let long = [b"V 2\nN 2\n".as_slice(), &[b' '; 59_993]].concat();
    refused_at_once(&long, 9, 0);
    refused_later(&long[..60_000], 11, 3);
    refused_later(b"N 4\nV 2\n", 11, 2);
    refused_later(b"V 2\nN 4\nV 2\n", 11, 3);
    refused_later(b"V 2\nN 4\nN 4\n", 11, 3);
    for d in ["D 0", "D 3", "D 4", "D 0000", "D 9999"] {
        refused_later(format!("V 2\nN 4\n{d}").as_bytes(), 23, 3);
        refused_later(
            format!("V 2\nN 4\nK 0 1\n+ 0 1\n{d}\nK 0 1").as_bytes(),
            23,
            5,
        );
    }
    refused_later(b"V 2\nN 4\nD 00000", 11, 3);
    refused_later(b"V 2\nN 4\nD", 11, 3);
    refused_later(b"V 2\nN 4\nD 0 1", 11, 3);
}

/// Without D rows, `V 2` in front of a list changes nothing but which row is refused.
#[test]
fn v2_in_front_of_a_list() {
    let mut random = Random::new(42);
    for _ in 0..400 {
        let list = lists::random_list(&mut random);
        let all = rows(&list);
        let struck = all
            .iter()
            .any(|row| matches!(later_row(row), Some(Row::StrikeAll(_))));
        if rows_before_n(&all) == 1 || struck || list.len() > 59_996 {
            continue;
        }
        let mut without = Memory::filled(40, 7);
        let mut with = without.clone();
        let answer = without.read_list(&list);
        let later = with.read_list(&[b"V 2\n", &list[..]].concat());
        let row = if answer.number == 0 {
            0
        } else {
            answer.row + 1
        };
        assert_eq!((later.number, later.row), (answer.number, row));
        assert_eq!(with, without);
    }
}

#[test]
fn all_seven_slices_are_asked_for_by_any_list() {
    for list in [b"N 5".as_slice(), b"N 5\nD 1", b"N 5\n+ 0 1", b"N 5\nK 0 1"] {
        for slice in 0..7 {
            let mut memory = Memory::filled(5, 1);
            let slices = [
                &mut memory.neighbours,
                &mut memory.degrees,
                &mut memory.waves,
                &mut memory.counts,
                &mut memory.ranks,
                &mut memory.trail,
                &mut memory.moved,
            ];
            slices.into_iter().nth(slice).unwrap().pop();
            let before = memory.clone();
            let answer = memory.read_list(list);
            assert_eq!((answer.number, answer.row), (2, 1));
            assert_eq!(memory, before);
        }
    }
}

#[test]
fn numbers_and_rows_of_later_rows() {
    refused_later(b"N 4\n+ 0 1\n\n", 11, 3);
    refused_later(b"N 4\n\n+ 0 1\n", 11, 2);
    refused_later(b"N 4\nN 4", 11, 2);
    refused_later(b"N 4\n+ 1 3\n+ 00005 1", 11, 3);
    refused_later(b"N 4\n+ 1 3\n+ 05 1", 4, 3);
    refused_later(b"N 4\n+ 9999 9999\n", 4, 2);
    refused_later(b"N 4\n+ 0 4\n", 4, 2);
    refused_later(b"N 4\n- 4 0\n", 4, 2);
    refused_later(b"N 4\n+ 0 1\nD 4\n", 4, 3);
    refused_later(b"N 4\n+ 2 2\n", 5, 2);
    refused_later(b"N 4\n- 2 2\n", 5, 2);
    refused_later(b"N 4\n+ 0 1\n+ 1 0\n+ 2 3\n", 6, 3);
    refused_later(b"N 4\n+ 0 1\n- 1 2\n+ 2 3\n", 7, 3);
    refused_later(b"N 4\n+ 0 1\nD 0\n- 0 1\n", 7, 4);
    refused_later(b"N 0\nD 0", 4, 2);
}

#[test]
fn an_earlier_row_s_refusal_comes_first() {
    refused_later(b"N 4\n+ 9 9\nnonsense\n", 4, 2);
    refused_later(b"N 4\nnonsense\n+ 9 9\n", 11, 2);
}

#[test]
fn full_degrees_in_a_list() {
    let mut list = b"N 30\n".to_vec();
    for q in 1..24 {
        list.extend(format!("+ {q} 0\n").bytes());
    }
    assert_eq!(read(&list).0, 0);
    refused_later(&[&list[..], b"+ 0 24"].concat(), 8, 25);
    refused_later(&[&list[..], b"+ 24 0"].concat(), 8, 25);
    refused_later(&[&list[..], b"+ 0 5"].concat(), 6, 25);
    assert_eq!(read(&[&list[..], b"- 0 5\n+ 24 0"].concat()).0, 0);
}

#[test]
fn equal_clashes_leave_equal_plans() {
    let (_, _, one) = read(b"N 5\n+ 0 1\n+ 1 2\n+ 3 4\nD 1\n+ 2 1\n");
    let (_, _, other) = read(b"N 5\n+ 4 3\n+ 2 1");
    let graph = Graph::of(5, [(3, 4), (1, 2)]);
    assert_eq!(one.held_graph(), Some(graph.clone()));
    let wanted = memory_of(&graph, 0);
    for memory in [one, other] {
        assert_eq!(memory.neighbours[..115], wanted.neighbours);
        assert_eq!(memory.degrees[..5], wanted.degrees);
        assert_eq!(memory.waves[..5], wanted.waves);
        assert_eq!(memory.counts[..120], wanted.counts);
        assert_eq!(memory.ranks[..5], wanted.ranks);
        assert_eq!(memory.tally, wanted.tally);
    }
}

#[test]
fn edges_of_the_paper() {
    for case in lists::edges() {
        let output = program_output(&case.list);
        assert_eq!(
            String::from_utf8(output).unwrap(),
            case.output,
            "{}",
            case.name
        );
    }
}

#[test]
fn malformed_rows_are_refused() {
    for row in lists::malformed_rows() {
        refused_later(&[b"N 30\n+ 6 7\n", &row[..]].concat(), 11, 3);
        refused_later(&[b"N 30\n+ 6 7\n", &row[..], b"\n+ 8 9"].concat(), 11, 3);
    }
    for row in lists::malformed_n_rows() {
        refused_at_once(&row, 10, 1);
        refused_at_once(&[b"V 2\n", &row[..]].concat(), 10, 2);
        refused_at_once(&[&row[..], b"\n+ 0 1\n"].concat(), 10, 1);
    }
}

#[test]
fn padded_rows_read_as_plain_ones() {
    for (padded, plain) in lists::padded_rows() {
        let mut with_zeros = Memory::filled(30, 7);
        let mut without = Memory::filled(30, 7);
        let answer = with_zeros.read_list(&[b"N 0030\n+ 0006 07\n", &padded[..]].concat());
        let expected = without.read_list(&[b"N 30\n+ 6 7\n", &plain[..]].concat());
        assert_eq!((answer.number, answer.row), (expected.number, expected.row));
        assert_eq!(with_zeros, without);
    }
}

/// Random lists must show both sheets and each refusal, or they would test little.
#[test]
fn random_lists_are_varied() {
    let mut random = Random::new(43);
    let mut accepted = 0;
    let mut numbers = std::collections::BTreeSet::new();
    let mut most_waves = 0;
    for _ in 0..900 {
        let mut memory = Memory::filled(1024, 0);
        memory.open(0);
        let answer = memory.read_list(&lists::random_list(&mut random));
        numbers.insert(answer.number);
        accepted += usize::from(answer.number == 0);
        most_waves = most_waves.max(memory.tally.waves);
        assert!(memory.holds_plan());
    }
    assert!((300..750).contains(&accepted), "{accepted} accepted");
    assert!(most_waves >= 10, "{most_waves} waves");
    for number in [0, 1, 4, 5, 6, 7, 8, 10, 11, 18, 23] {
        assert!(numbers.contains(&number), "no refusal {number}");
    }
}
