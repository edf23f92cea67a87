//! The product's counts by brute force: a symbol read within every small budget of depth and nodes,
//! each held to the plain model; nothing changes behind the nodes counted by then, and a refusal
//! leaves these as zeros.
use crate::limits::{ACCEPTED, CELLS};
use crate::model::Demands;
use crate::reading;

/// Larger symbols would take too long.
const MOST_NODES: usize = 60;
const MOST_DEPTH: usize = 40;
/// Cells behind the last whole node: neither read nor written.
const TAIL: usize = CELLS - 1;

/// What a cell held before; no node holds that.
fn old(place: usize) -> u32 {
    0xF1E2_D300 + place as u32
}

/// How many nodes have changed, counted to the last; none would be right if a refusal left a cell.
fn changed(table: &[u32], number: u64) -> usize {
    let last = (0..table.len()).rev().find(|place| table[*place] != old(*place));
    let nodes = last.map_or(0, |last| last / CELLS + 1);
    let zeros = table[..nodes * CELLS].iter().all(|cell| *cell == 0);
    if number == ACCEPTED || zeros {
        nodes
    } else {
        usize::MAX
    }
}

/// The number and the offset within budgets, and how many nodes have changed.
fn run(symbol: &[u8], depth: usize, nodes: usize) -> (u64, usize, usize) {
    let mut table: Vec<u32> = (0..nodes * CELLS + TAIL).map(old).collect();
    let (number, offset) = reading::read(symbol, depth as u16, &mut table).answer();
    (number, offset, changed(&table, number))
}

/// Budgets of depth and nodes for which the symbol is not read as the model says, if any; `None` if
/// the symbol is too large to be tried.
pub fn wrong_budgets(symbol: &[u8]) -> Option<Option<(usize, usize)>> {
    let demands = Demands::of(symbol);
    let (depth, nodes) = demands.counts();
    if depth > MOST_DEPTH || nodes > MOST_NODES {
        return None;
    }
    let wrong =
        |(depth, nodes): &(_, _)| run(symbol, *depth, *nodes) != demands.within(*depth, *nodes);
    let mut pairs =
        (0..=depth + 1).flat_map(|depth| (0..=nodes + 1).map(move |nodes| (depth, nodes)));
    Some(pairs.find(wrong))
}
