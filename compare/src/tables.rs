//! The writer alone and the name question, on tables that a reading left and on others.
use crate::formed::{self, NON_TEMPLATE};
use crate::known::{self, Known, BAD_TABLE};
use crate::limits::{ACCEPTED, CELLS, DEEPEST};
use crate::random::Random;
use crate::trials::{Call, Trials};
use crate::writing::Report;
use crate::{by_copy, by_crate};

/// What a damaged cell may hold; also what it held, one more, one less and with its lowest bit turned.
const VALUES: [u32; 14] =
    [0, 1, 2, 3, 4, 5, 10, 63, 64, 511, 512, 1 << 31, (1 << 31) + 1, u32::MAX];
/// Room for any text of a damaged table.
const ROOM: usize = 400;
/// A node that no reading leaves, and one of zeros.
const NO_NODE: [u32; CELLS] = [0xF1E2_D3C4; CELLS];
const ZEROS: [u32; CELLS] = [0; CELLS];

pub struct Tables {
    copy: by_copy::Operators,
    own: by_crate::Operators,
    pub random: Random,
}

impl Tables {
    pub fn new(random: Random) -> Tables {
        Tables { copy: by_copy::Operators::new(), own: by_crate::Operators::new(), random }
    }

    /// The writer on any table. Its text is the copy's.
    pub fn write(&self, trials: &mut Trials, kind: &str, call: Call, table: &[u32]) {
        let text = by_copy::text(&self.copy, call.symbol, table, call.flags);
        let own = by_crate::text(&self.own, call.symbol, table, call.flags);
        trials.add_text(own == text);
        let should = known::alone(call, table, &text, ROOM);
        trials.write(kind, call, (table, ROOM), &should);
    }

    /// All that is tried on the table of an accepted symbol.
    pub fn try_all(&mut self, trials: &mut Trials, known: &Known) {
        budgets(trials, known);
        self.try_sizes(trials, known);
        self.try_shorter_symbols(trials, known);
        let nodes = formed::nodes(&known.nodes).len() as u64;
        for node in (0..=nodes + 1).chain([1 << 32, 1 << 63, u64::MAX]) {
            name(trials, "name, every node", known.symbol, &known.nodes, node);
        }
    }

    /// Tables with a tail, with nodes too few, with nodes too many.
    fn try_sizes(&mut self, trials: &mut Trials, known: &Known) {
        let (call, nodes) = (known.call(DEEPEST.into()), &known.nodes);
        for tail in 1..CELLS {
            let table = [nodes, &NO_NODE[..tail]].concat();
            self.write(trials, "write, with a tail", call, &table);
            name(trials, "name, with a tail", known.symbol, &table, 0);
        }
        for count in 0..nodes.len() / CELLS {
            let table = &nodes[..count * CELLS];
            self.write(trials, "write, nodes too few", call, table);
            name(trials, "name, nodes too few", known.symbol, table, count as u64 / 2);
        }
        let root = &nodes[nodes.len() - CELLS..];
        for more in [&NO_NODE, &ZEROS, root, &nodes[..CELLS]] {
            let table = [nodes, more].concat();
            self.write(trials, "write, a node too many", call, &table);
            name(trials, "name, a node too many", known.symbol, &table, 0);
        }
    }

    /// A symbol that ends before a name does has another table.
    fn try_shorter_symbols(&mut self, trials: &mut Trials, known: &Known) {
        for length in 0..known.symbol.len() {
            let call = Call { symbol: &known.symbol[..length], ..known.call(DEEPEST.into()) };
            self.write(trials, "write, symbol shortened", call, &known.nodes);
            name(trials, "name, symbol shortened", call.symbol, &known.nodes, 0);
        }
    }

    /// Each cell of a small table changed to several values; and two or three changed at once.
    pub fn try_damaged(&mut self, trials: &mut Trials, known: &Known) {
        let call = known.call(DEEPEST.into());
        let mut table = known.nodes.clone();
        for place in 0..table.len() {
            let old = table[place];
            let near = [old.wrapping_add(1), old.wrapping_sub(1), old ^ 1];
            for value in near.into_iter().chain(VALUES).filter(|value| *value != old) {
                table[place] = value;
                self.write(trials, "write, a cell changed", call, &table);
                let node = self.random.below(table.len() / CELLS) as u64;
                name(trials, "name, a cell changed", known.symbol, &table, node);
            }
            table[place] = old;
        }
        for _ in 0..table.len() {
            let table = self.damaged(&known.nodes);
            self.write(trials, "write, cells changed", call, &table);
        }
    }

    /// A table with a kind changed and heights mended, so that many are still well formed.
    fn damaged(&mut self, nodes: &[u32]) -> Vec<u32> {
        let mut table = nodes.to_vec();
        let count = table.len() / CELLS;
        for _ in 0..1 + self.random.below(2) {
            let node = self.random.below(count);
            let (cell, value) = match self.random.below(3) {
                0 => (0, self.random.below(65) as u32),
                1 => (4 + self.random.below(3), self.random.below(node + 1) as u32),
                _ => (7 + self.random.below(3), self.random.below(600) as u32),
            };
            table[node * CELLS + cell] = value;
        }
        formed::mend_heights(&mut table);
        table
    }

    /// Every kind in the place of each node, with heights mended.
    pub fn try_kinds(&mut self, trials: &mut Trials, known: &Known) {
        let call = known.call(DEEPEST.into());
        for node in 0..known.nodes.len() / CELLS {
            for kind in 0..66 {
                let mut table = known.nodes.clone();
                table[node * CELLS] = kind;
                formed::mend_heights(&mut table);
                self.write(trials, "write, every kind", call, &table);
            }
        }
    }
}

/// Every depth and every room on the table that the reading left.
fn budgets(trials: &mut Trials, known: &Known) {
    let (height, text) = (known.alone(DEEPEST.into(), 0).report.depth as u32, known.text.len());
    let depths = (0..=height + 1).chain([DEEPEST.into(), 201, u32::MAX]);
    let every_depth = depths.map(|depth| ("write, every depth", depth, text));
    let every_room = (0..=text + 1).map(|room| ("write, every room", height, room));
    for (kind, depth, room) in every_depth.chain(every_room) {
        let should = known.alone(depth, room);
        trials.write(kind, known.call(depth), (&known.nodes, room), &should);
    }
}

/// The name question on any table.
pub fn name(trials: &mut Trials, kind: &str, symbol: &[u8], table: &[u32], node: u64) {
    let named = usize::try_from(node).ok().and_then(|node| formed::nodes(table).get(node));
    let named = named.filter(|node| node[0] == NON_TEMPLATE);
    let should = match (known::symbol_refusal(symbol), named) {
        (Some(refusal), _) => refusal,
        (None, Some(node)) if formed::is_well_formed(table, symbol.len()) => {
            let (start, length) = (node[7] as usize, node[8] as usize);
            Report { number: ACCEPTED, offset: 0, depth: 0, nodes: start, text: length }
        }
        _ => Report::refusal(BAD_TABLE, 0),
    };
    trials.name(kind, symbol, (table, node), should);
}
