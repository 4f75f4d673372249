//! The output of the program *doubt*: for each doubted bank its wave letter, as kept and as read straight off
//! the rule, and its earlier neighbours with their letters.

use crate::graph::Graph;
use crate::memory::Memory;
use crate::plan::MAX_BANKS;
use crate::refusals::ACCEPTED;
use crate::sheet::LETTERS;

/// What the program prints for a list on standard input and these banks as arguments.
pub fn program_output(list: &[u8], banks: &[u16]) -> Vec<u8> {
    let mut memory = Memory::filled(MAX_BANKS, 0);
    let read = memory.read_list(list);
    if read.number != ACCEPTED {
        return format!("REFUSED {} ROW {}\n", read.number, read.row).into_bytes();
    }
    let graph = memory.held_graph().expect("an accepted list leaves a plan");
    let lines = banks.iter().map(|&b| line(&memory, &graph, b));
    lines.collect::<String>().into_bytes()
}

/// The line of bank b.
fn line(memory: &Memory, graph: &Graph, b: u16) -> String {
    let number = memory.wave_by_rule(b).number;
    if number != ACCEPTED {
        return format!("BANK {b} REFUSED {number}\n");
    }
    let bank = usize::from(b);
    let letter = |wave: usize| LETTERS.as_bytes()[wave] as char;
    let (kept, read) = (graph.waves()[bank], graph.wave_by_rule(bank));
    let mut line = format!("BANK {b} KEPT {} READ {}", letter(kept), letter(read));
    for q in graph.neighbours(bank).filter(|&q| graph.earlier(q, bank)) {
        line += &format!(" FROM {q} {}", letter(graph.wave_by_rule(q)));
    }
    line + "\n"
}
