//! Compares the product's reader with the crate: whether a symbol is accepted, how many bytes are
//! consumed, at which offset it is refused, and the tree; and with a plain model of the counts.
//!
//! usage: reader COUNT [LISTS]
//!
//! COUNT symbols are made from the grammar, half of them damaged, and as many are the short strings
//! at each place of a symbol; LISTS is a folder of *.txt, one symbol a line. The crate with its
//! checks decides; where it traps, the crate without them.
mod answers;
mod counts;
mod damage;
mod decode;
mod enums;
mod exhaustive;
mod fault;
mod generate;
mod limits;
mod model;
mod random;
mod reading;
mod refusals;
mod shape;
mod sources;
mod tally;
mod traps;
mod verdict;

use std::path::Path;
use std::process::ExitCode;
use std::{env, io};

use tally::{Differences, Reasons};
use verdict::Verdict;

/// The counts are tried for one symbol in so many, and for shorter ones only.
const COUNTED: usize = 30;
const LONGEST_COUNTED: usize = 300;

/// What became of the symbols of a source.
#[derive(Default)]
struct Tally {
    accepted: usize,
    refused: usize,
    traps: Reasons,
    left_out: Reasons,
    different: Differences,
}

impl Tally {
    fn add(&mut self, symbol: Vec<u8>, verdict: Verdict, trap: Option<String>) {
        if let Some(trap) = trap {
            self.traps.add(trap);
        }
        match verdict {
            Verdict::Accepted => self.accepted += 1,
            Verdict::Refused => self.refused += 1,
            Verdict::LeftOut(reason) => self.left_out.add(reason),
            Verdict::Different(difference) => self.different.add(symbol, difference),
        }
    }

    /// Whether there is a difference.
    fn print(&mut self, source: &str) -> bool {
        let Tally { accepted, refused, .. } = self;
        let equal = *accepted + *refused;
        println!("reader, {source}: {equal} symbols as in the crate, {accepted} of them accepted");
        self.traps.print(&format!("reader, {source}: the crate's checks trap"));
        self.left_out.print(&format!("reader, {source}: left out"));
        self.different.print(&format!("reader, {source}"))
    }
}

/// Why a symbol is not for the reader: the calls above it refuse it first.
fn outside(symbol: &[u8]) -> Option<&'static str> {
    match symbol.len() {
        0 => Some("empty"),
        1..=limits::LONGEST if symbol.is_ascii() => None,
        1..=limits::LONGEST => Some("a byte of 128 or more"),
        _ => Some("over 4,096 bytes"),
    }
}

/// Whether the product differs on a symbol.
fn differs(source: &str, symbols: impl Iterator<Item = Vec<u8>>) -> bool {
    let mut table = vec![0; limits::MOST_NODES * limits::CELLS];
    let mut tally = Tally::default();
    for symbol in symbols {
        let (verdict, trap) = match (outside(&symbol), std::str::from_utf8(&symbol)) {
            (None, Ok(text)) => verdict::compare(text, &mut table),
            (reason, _) => (Verdict::LeftOut(reason.unwrap_or("not text")), None),
        };
        tally.add(symbol, verdict, trap);
    }
    tally.print(source)
}

/// Whether a symbol is not read as it should within some budgets. Large symbols are passed over.
fn counts_differ(count: usize) -> bool {
    let mut tried = 0;
    let counted = |symbol: &Vec<u8>| (1..LONGEST_COUNTED).contains(&symbol.len());
    for symbol in sources::generated(count).filter(counted) {
        match counts::wrong_budgets(&symbol) {
            None => continue,
            Some(None) => tried += 1,
            Some(Some((depth, nodes))) => {
                let symbol = symbol.escape_ascii();
                println!("reader, counts: `{symbol}` differs at depth {depth}, {nodes} nodes");
                return true;
            }
        }
    }
    println!("reader, counts: {tried} symbols, each within every budget of depth and nodes");
    false
}

fn compare(count: usize, lists: Option<String>) -> io::Result<bool> {
    let mut failed = false;
    if let Some(lists) = lists {
        failed |= differs("lists", sources::listed(Path::new(&lists))?.into_iter());
    }
    failed |= differs("short strings", exhaustive::symbols(count));
    failed |= differs("from the grammar", sources::generated(count));
    failed |= counts_differ(count / COUNTED);
    Ok(failed)
}

fn main() -> io::Result<ExitCode> {
    let mut words = env::args().skip(1);
    let Some(count) = words.next().and_then(|count| count.parse().ok()) else {
        eprintln!("usage: reader COUNT [LISTS]");
        return Ok(ExitCode::from(2));
    };
    let lists = words.next();
    traps::run("reader", move || compare(count, lists))
}
