//! What is known of a symbol under a flag word, by the crate and the plain model: what each call on
//! it should report and leave.
use std::borrow::Cow;

use crate::formed;
use crate::limits::{ACCEPTED, CELLS, DEEP, DEEPEST, LONGEST};
use crate::model::Demands;
use crate::shape::Shape;
use crate::texts::{Text, Texts};
use crate::trials::{Call, Outcome};
use crate::writing::{self, Report, CUT, OUTSIDE};

/// Numbers beside those of a reading: a byte of 128 or more; a bad call; a bad table.
const HIGH: u64 = 2;
const BAD_CALL: u64 = 7;
pub const BAD_TABLE: u64 = 8;

/// The flags that are known.
pub const FLAGS: u32 = 0x01F0_1EE6;

/// How a symbol is refused before anything is read: 1, 2.
pub fn symbol_refusal(symbol: &[u8]) -> Option<Report> {
    if symbol.is_empty() || symbol.len() > LONGEST {
        return Some(Report::refusal(OUTSIDE, 0));
    }
    let high = symbol.iter().position(|byte| *byte >= 128)?;
    Some(Report::refusal(HIGH, high))
}

/// And a call: 7 comes first.
pub fn refusal(call: Call) -> Option<Report> {
    if call.depth > DEEPEST.into() || call.flags & !FLAGS != 0 {
        return Some(Report::refusal(BAD_CALL, 0));
    }
    symbol_refusal(call.symbol)
}

/// A text in this room, behind a report that has all but the text.
fn fitted<'a>(report: Report, cells: Cow<'a, [u32]>, text: &'a [u8], room: usize) -> Outcome<'a> {
    let number = if text.len() > room { CUT } else { ACCEPTED };
    let text = &text[..text.len().min(room)];
    Outcome { report: Report { number, text: text.len(), ..report }, cells, text: text.into() }
}

/// What the writer alone should do with a table that has this text.
pub fn alone<'a>(call: Call, table: &[u32], text: &'a [u8], room: usize) -> Outcome<'a> {
    if let Some(report) = refusal(call) {
        return Outcome::unchanged(report);
    }
    let Some(depth) = formed::root_height(table, call.symbol.len()) else {
        return Outcome::unchanged(Report::refusal(BAD_TABLE, 0));
    };
    if depth > call.depth as usize {
        return Outcome::unchanged(Report::refusal(DEEP, 0));
    }
    let nodes = formed::nodes(table).len();
    let report = Report { number: ACCEPTED, offset: 0, depth, nodes, text: 0 };
    fitted(report, Cow::default(), text, room)
}

pub struct Known<'a> {
    pub symbol: &'a [u8],
    pub flags: u32,
    demands: Demands,
    /// The nodes and the text of an accepted symbol.
    pub nodes: Vec<u32>,
    pub text: Vec<u8>,
    /// Whether the text, the copy's, is the crate's, too.
    pub own: bool,
}

impl<'a> Known<'a> {
    /// The flags have known bits only. An error where the product's table is not the crate's tree;
    /// nothing where the symbol is too heavy for the crate.
    pub fn of(symbol: &'a str, flags: u32) -> Result<Option<Known<'a>>, String> {
        let demands = Demands::of(symbol.as_bytes());
        let (nodes, text) = (Vec::new(), Vec::new());
        let mut known = Known { symbol: symbol.as_bytes(), flags, demands, nodes, text, own: true };
        let all = known.demands.within(usize::MAX, usize::MAX);
        if known.demands.too_heavy() {
            return Ok(None);
        }
        if all.0 == ACCEPTED && known.counts().0 <= DEEPEST.into() {
            let texts = Texts::of(symbol).ok_or("refused by the crate")?;
            if texts.consumed != all.1 {
                return Err(format!("{} bytes consumed by the crate", texts.consumed));
            }
            let (Text { own, mended }, _) = texts.text(flags);
            known.own = own == mended;
            known.text = mended.into_bytes();
            known.nodes = nodes_of(symbol)?;
        }
        Ok(Some(known))
    }

    /// The largest depth and number of nodes asked for.
    pub fn counts(&self) -> (usize, usize) {
        self.demands.counts()
    }

    pub fn is_accepted(&self) -> bool {
        !self.nodes.is_empty()
    }

    pub fn call(&self, depth: u32) -> Call<'a> {
        Call { symbol: self.symbol, flags: self.flags, depth }
    }

    /// What reading and writing should do within these budgets.
    pub fn reading(&self, depth: u32, (cells, room): (usize, usize)) -> Outcome<'_> {
        if let Some(report) = refusal(self.call(depth)) {
            return Outcome::unchanged(report);
        }
        let (number, offset, counted) = self.demands.within(depth as usize, cells / CELLS);
        if number != ACCEPTED {
            let zeros = vec![0; counted * CELLS];
            let report = Report::refusal(number, offset);
            return Outcome { report, cells: zeros.into(), text: Cow::default() };
        }
        let (depth, nodes) = self.counts();
        let report = Report { number, offset, depth, nodes, text: 0 };
        fitted(report, Cow::from(&self.nodes), &self.text, room)
    }

    /// What the writer alone should do with the nodes that the reading leaves.
    pub fn alone(&self, depth: u32, room: usize) -> Outcome<'_> {
        alone(self.call(depth), &self.nodes, &self.text, room)
    }
}

/// The nodes of an accepted symbol, which are the crate's tree.
fn nodes_of(symbol: &str) -> Result<Vec<u32>, String> {
    let mut table = vec![0; 2 * symbol.len() * CELLS];
    let report = writing::read(symbol.as_bytes(), 0, DEEPEST.into(), &mut table, &mut []);
    table.truncate(report.nodes * CELLS);
    let shape = Shape { symbol: symbol.as_bytes(), nodes: formed::nodes(&table) };
    match unchecked::parse(symbol) {
        Ok(tree) if shape.is(&tree) && shape.has_no_other_node() => Ok(table),
        _ => Err(format!("not the crate's tree: {report:?} {table:?}")),
    }
}
