//! Sheets: outputs that just fit, are too short or have bytes to spare.

use crate::call::Call;
use crate::pair::Pair;
use crate::plans::{bank_count, blocks, graph, memory_of, sheet_length};
use crate::rounds;
use independent::random::Random;

#[test]
fn sheets_of_random_plans() {
    let mut random = Random::new(91);
    for round in 0..rounds(400) {
        let most = if round % 20 == 0 { 1024 } else { 60 };
        let n = bank_count(&mut random, most);
        let graph = graph(&mut random, n);
        let memory = memory_of(&mut random, &graph);
        let length = sheet_length(&memory);
        let mut pair = Pair::new(memory, random.draw());
        let spare = length + random.between(1, 100);
        let short = random.below(length);
        for (space, number) in [(length, 0), (length - 1, 12), (spare, 0), (short, 12)] {
            let answer = pair.call(&Call::WriteSheet(space));
            assert_eq!(answer.number, number);
        }
    }
}

/// 24 waves, 1,024 banks and more than 10,000 clashes.
#[test]
fn the_longest_sheet() {
    let mut random = Random::new(92);
    let memory = memory_of(&mut random, &blocks(1024, 24));
    let mut pair = Pair::new(memory, 92);
    assert_eq!(pair.call(&Call::WriteSheet(4084)).results, [4084]);
    assert_eq!(pair.call(&Call::WriteSheet(4083)).number, 12);
}
