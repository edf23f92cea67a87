//! Budgets of every size.
use crate::known::Known;
use crate::limits::{CELLS, DEEPEST};
use crate::random::Random;
use crate::trials::Trials;

/// Budgets of all three kinds that are tried for a symbol, beside those of one kind each.
const MIXED: usize = 40;

/// Depth, cells and room.
type Budget = (usize, usize, usize);

/// Each depth, each table with each tail, each room, the others ample; and some of all three.
fn budgets(known: &Known, random: &mut Random) -> Vec<(&'static str, Budget)> {
    let ((depth, nodes), text) = (known.counts(), known.text.len());
    let (deepest, cells, room) = (usize::from(DEEPEST), (nodes + 2) * CELLS, text + 2);
    let mut all: Vec<(_, Budget)> = Vec::new();
    all.extend((0..=depth + 1).map(|depth| ("read, every depth", (depth, cells, room))));
    all.extend((0..cells).map(|cells| ("read, every table and tail", (deepest, cells, room))));
    all.extend((0..=text + 1).map(|room| ("read, every room", (deepest, cells, room))));
    all.push(("read, nothing lent", (0, 0, 0)));
    all.push(("read, nothing lent", (deepest, 0, 0)));
    all.extend((0..MIXED).map(|_| {
        let budget = (random.below(depth + 2), random.below(cells), random.below(room));
        ("read, budgets mixed", budget)
    }));
    all
}

pub fn try_all(trials: &mut Trials, known: &Known, random: &mut Random) {
    for (kind, (depth, cells, room)) in budgets(known, random) {
        let should = known.reading(depth as u32, (cells, room));
        trials.read(kind, known.call(depth as u32), (cells, room), &should);
    }
}
