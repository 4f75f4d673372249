//! Ranks: the order of equal degrees, the reach of edits by it, K rows in lists, and depots whose
//! banks are renumbered.

use crate::support::{any_graph, memory_of, opened, opened_with};
use independent::graph::{Bank, Graph};
use independent::journals::{drawn_fields, same_list};
use independent::list::rows;
use independent::lists::{late_ranks, renumbered};
use independent::memory::Memory;
use independent::random::Random;
use independent::ranks::{different_ranks, drawn_ranks, shuffled};
use independent::sheet::program_output;

#[test]
fn a_tie_that_rank_decides_against_number() {
    assert_eq!(opened(2, &[(0, 1)]).waves, [0, 1]);
    assert_eq!(opened_with(&[1, 0], &[(0, 1)]).waves, [1, 0]);
    assert_eq!(opened_with(&[9999, 9998], &[(0, 1)]).waves, [1, 0]);
    assert_eq!(opened_with(&[0, 1], &[(0, 1)]).waves, [0, 1]);
}

#[test]
fn equal_ranks_go_by_number() {
    assert_eq!(opened_with(&[7, 7], &[(1, 0)]).waves, [0, 1]);
    let ring = [(0, 1), (1, 2), (2, 0)];
    assert_eq!(opened_with(&[3, 3, 2], &ring).waves, [1, 2, 0]);
    assert_eq!(opened_with(&[3, 2, 2], &ring).waves, [2, 0, 1]);
}

#[test]
fn degree_goes_before_rank() {
    assert_eq!(
        opened_with(&[0, 9999, 0], &[(0, 1), (1, 2)]).waves,
        [1, 0, 1]
    );
}

/// M2 and M3, where bank 1 has a larger rank than the others: bank 2 is then earlier than bank 1, and
/// turns over when bank 1 gets its second clash.
#[test]
fn an_edit_whose_trail_differs_from_that_of_ranks_0() {
    let edits = |ranks: &[u16]| {
        let mut memory = opened_with(ranks, &[(1, 2)]);
        let first = (memory.trail[..2].to_vec(), memory.waves.clone());
        let answer = memory.add(0, 1);
        let (trail, moved) = (answer.trail, answer.moved);
        let reach = (
            memory.trail[..trail].to_vec(),
            memory.moved[..moved].to_vec(),
        );
        (first, reach, memory.waves)
    };
    let (first, reach, waves) = edits(&[0, 0, 0]);
    assert_eq!(first, (vec![1, 2], vec![0, 0, 1]));
    assert_eq!(reach, (vec![1, 0], vec![0]));
    assert_eq!(waves, [1, 0, 1]);
    let (first, reach, waves) = edits(&[0, 1, 0]);
    assert_eq!(first, (vec![2, 1], vec![0, 1, 0]));
    assert_eq!(reach, (vec![1, 0, 2], vec![1, 0, 2]));
    assert_eq!(waves, [1, 0, 1]);
}

/// Ranks that order the banks as their numbers do, equal ranks among them, give the waves of ranks 0.
#[test]
fn ranks_in_the_order_of_numbers_change_no_wave() {
    let mut random = Random::new(71);
    for _ in 0..200 {
        let graph = any_graph(&mut random, 40);
        let mut ranks = drawn_ranks(&mut random, graph.banks());
        ranks.sort_unstable();
        let none = graph.clone().with_ranks(vec![0; ranks.len()]);
        let ordered = graph.with_ranks(ranks);
        assert_eq!(ordered.order(), none.order());
        assert_eq!(ordered.waves(), none.waves());
    }
}

/// The tests on random plans would be weak if their ranks seldom changed a wave or a trail.
#[test]
fn random_ranks_change_waves_and_trails() {
    let mut random = Random::new(72);
    let (mut waves, mut counts) = (0, 0);
    for _ in 0..300 {
        let graph = any_graph(&mut random, 40);
        let none = graph.clone().with_ranks(vec![0; graph.banks()]);
        waves += usize::from(graph.waves() != none.waves());
        let b = random.below(graph.banks());
        let q = graph.neighbours(b).next();
        if let Some(q) = q {
            let [one, other] = [&graph, &none].map(|graph| {
                let mut memory = memory_of(graph, 0);
                memory.strike(b as u16, q as u16)
            });
            assert_eq!((one.number, other.number), (0, 0));
            counts += usize::from(one.trail != other.trail);
        }
    }
    assert!(waves > 100 && counts > 60, "{waves}, {counts}");
}

fn read(list: &[u8]) -> (u16, usize, Memory) {
    let mut memory = Memory::filled(30, 999);
    let answer = memory.read_list(list);
    (answer.number, answer.row, memory)
}

/// K rows set ranks and nothing else.
#[test]
fn k_rows_leave_waves_trail_and_moved() {
    let (number, row, after) = read(b"N 5\nK 3 9999\nK 0 17\nK 3 4\nK 2 0\n");
    assert_eq!((number, row), (0, 0));
    let (_, _, mut wanted) = read(b"N 5");
    assert_eq!(wanted.trail, [999; 30]);
    wanted.ranks[..5].copy_from_slice(&[17, 0, 0, 4, 0]);
    assert_eq!(after, wanted);
}

/// A list does what opening, ranks and calls do.
#[test]
fn a_list_with_k_rows_does_what_its_calls_do() {
    let (number, _, by_list) = read(b"N 3\nK 1 1\n+ 1 2\n+ 0 1");
    assert_eq!(number, 0);
    let mut by_calls = Memory::filled(30, 999);
    by_calls.open(3);
    by_calls.ranks[1] = 1;
    by_calls.add(1, 2);
    by_calls.add(0, 1);
    assert_eq!(by_list, by_calls);
    assert_eq!(by_list.trail[..4], [1, 0, 2, 999]);
}

/// Before the first edit a K row is accepted or gets 4; after it 18, and the rows before are made.
#[test]
fn k_rows_in_every_place() {
    for (list, number, row) in late_ranks() {
        let shown = String::from_utf8_lossy(&list);
        let (got, at, memory) = read(&list);
        if number == 0 {
            assert!(at != row, "{shown:?}");
            continue;
        }
        assert_eq!((got, at), (number, row), "{shown:?}");
        let (accepted, _, before) = read(&rows(&list)[..row - 1].join(&b'\n'));
        assert_eq!(accepted, 0);
        assert_eq!(memory, before, "{shown:?}");
    }
}

#[test]
fn padded_ranks_read_as_plain_ones() {
    for (padded, plain) in [
        ("K 0001 0005", "K 1 5"),
        ("K 01 5", "K 1 5"),
        ("K 1 00", "K 1 0"),
        ("K 0 0999", "K 0 999"),
    ] {
        let list = |row: &str| format!("N 3\nK 2 3\n{row}\n+ 0 1\n+ 0 2\n+ 1 2");
        let (number, _, wanted) = read(list(plain).as_bytes());
        assert_eq!(number, 0);
        assert_eq!(read(list(padded).as_bytes()).2, wanted);
    }
}

/// Demand 2: a list, and the list of its clashes and ranks in another order.
#[test]
fn equal_clashes_and_ranks_leave_equal_plans() {
    let mut random = Random::new(73);
    for _ in 0..100 {
        let n = random.between(1, 30);
        let fields = drawn_fields(&mut random, n, 10, 150);
        let (number, _, mut one) = read(&same_list(n as u16, &fields));
        assert_eq!(number, 0);
        let graph = one.held_graph().expect("a plan");
        let ranks = shuffled(&mut random, n).into_iter();
        let ranks: String = ranks
            .map(|b| format!("\nK {b} {}", graph.rank(b)))
            .collect();
        let clashes = (0..n)
            .rev()
            .flat_map(|a| graph.neighbours(a).map(move |b| (a, b)));
        let clashes: String = clashes
            .filter(|(a, b)| a > b)
            .map(|(a, b)| format!("\n+ {a} {b}"))
            .collect();
        let (number, _, other) = read(format!("N {n}{ranks}{clashes}").as_bytes());
        assert_eq!(number, 0);
        one.trail = other.trail.clone();
        one.moved = other.moved.clone();
        assert_eq!(one, other);
    }
}

/// The graph with bank b under the number `numbers[b]`; ranks stay with their banks.
fn under(graph: &Graph, numbers: &[Bank]) -> Graph {
    let clashes = |a: Bank| graph.neighbours(a).map(move |b| (numbers[a], numbers[b]));
    let mut ranks = vec![0; graph.banks()];
    for b in 0..graph.banks() {
        ranks[numbers[b]] = graph.rank(b);
    }
    Graph::of(graph.banks(), (0..graph.banks()).flat_map(clashes)).with_ranks(ranks)
}

/// If all ranks are different, numbers decide nothing: waves, order, trail and moved correspond.
#[test]
fn renumbered_graphs_have_corresponding_waves() {
    let mut random = Random::new(74);
    for _ in 0..200 {
        let graph = any_graph(&mut random, 40);
        let n = graph.banks();
        let graph = graph.with_ranks(different_ranks(&mut random, n));
        let numbers = shuffled(&mut random, n);
        let other = under(&graph, &numbers);
        let new = |b: &Bank| numbers[*b];
        let order: Vec<Bank> = graph.order().iter().map(new).collect();
        assert_eq!(order, other.order());
        let (waves, other_waves) = (graph.waves(), other.waves());
        assert!((0..n).all(|b| waves[b] == other_waves[numbers[b]]));
        let (a, b) = (random.below(n), random.below(n));
        let mut memory = memory_of(&graph, 0);
        let mut renumbered = memory_of(&other, 0);
        let cell = |b: Bank| b as u16;
        let (one, two) = if graph.clash(a, b) {
            let two = renumbered.strike(cell(numbers[a]), cell(numbers[b]));
            (memory.strike(cell(a), cell(b)), two)
        } else {
            let two = renumbered.add(cell(numbers[a]), cell(numbers[b]));
            (memory.add(cell(a), cell(b)), two)
        };
        assert_eq!(one, two);
        let new = |banks: &[u16]| -> Vec<u16> {
            banks
                .iter()
                .map(|&b| cell(numbers[usize::from(b)]))
                .collect()
        };
        assert_eq!(
            new(&memory.trail[..one.trail]),
            renumbered.trail[..one.trail]
        );
        assert_eq!(
            new(&memory.moved[..one.moved]),
            renumbered.moved[..one.moved]
        );
    }
}

/// Lists of a depot under two numberings. Without their K rows the waves would often not correspond.
#[test]
fn renumbered_depots_have_corresponding_sheets() {
    let mut random = Random::new(75);
    let mut differ = 0;
    for _ in 0..200 {
        let depot = renumbered(&mut random, 30);
        let corresponds = |list: &[u8], other: &[u8]| {
            let [one, two] = [list, other].map(|list| {
                let (number, _, memory) = read(list);
                assert_eq!(number, 0);
                memory.waves
            });
            let mut banks = (0..depot.numbers.len()).zip(&depot.numbers);
            banks.all(|(b, &new)| one[b] == two[new])
        };
        assert!(corresponds(&depot.list, &depot.other));
        let unranked = |list: &[u8]| {
            let rows = rows(list).into_iter();
            let rows: Vec<&[u8]> = rows.filter(|row| !row.starts_with(b"K")).collect();
            rows.join(&b'\n')
        };
        differ += usize::from(!corresponds(
            &unranked(&depot.list),
            &unranked(&depot.other),
        ));
    }
    assert!(differ > 60, "{differ}");
}

/// The README's depot: bank 1 of the street gets the last number, and the sheet shows the same waves.
#[test]
fn a_building_is_sold() {
    let before = b"N 4\nK 0 10\nK 1 20\nK 2 30\nK 3 40\n+ 0 1\n+ 1 2\n+ 2 3";
    let after = b"N 4\nK 0 10\nK 3 20\nK 1 30\nK 2 40\n+ 0 3\n+ 3 1\n+ 1 2";
    assert_eq!(
        program_output(before),
        b"WAVES 2\nA 1 3\nB 0 2\nTOTAL 4 3\n"
    );
    assert_eq!(program_output(after), b"WAVES 2\nA 2 3\nB 0 1\nTOTAL 4 3\n");
    let without_ranks = b"N 4\n+ 0 3\n+ 3 1\n+ 1 2";
    assert_eq!(
        program_output(without_ranks),
        b"WAVES 2\nA 0 1\nB 2 3\nTOTAL 4 3\n"
    );
}
