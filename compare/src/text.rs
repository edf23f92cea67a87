//! Compares the product with the crate, by one call for each symbol and flag word: the text, the bytes
//! consumed, the offset of a refusal; and with the plain model, which has the counts, too. A sample
//! is compared under all flag words, and in every room under one. The text is that of the crate's
//! mended copy; where the crate has another, the pair is counted apart.
//!
//! usage: text COUNT SHORT TRIAL [LISTS]
//!
//! COUNT symbols are made from the grammar, half of them damaged, and SHORT are the short strings at
//! each place of a symbol; LISTS is a folder of lists. The crate with its checks decides; where it
//! traps, the crate without them. TRIAL is the folder of the writer's trial program: its stored
//! output is held to the copy, too, unless SHORT is 0; so are hand-picked rvalue references to the
//! crate's text of references.
mod answers;
mod damage;
mod exhaustive;
mod expected;
mod fault;
mod flags;
mod generate;
mod limits;
mod model;
mod random;
mod references;
mod refusals;
mod sources;
mod tally;
mod texts;
mod traps;
mod trial;
mod writing;

use std::path::Path;
use std::process::ExitCode;
use std::{env, io};

use expected::Expected;
use flags::FlagWords;
use limits::{ACCEPTED, CELLS, LONGEST, MOST_NODES};
use model::Demands;
use refusals::Refusal;
use tally::{Differences, Reasons};
use texts::{Text, Texts, CLOSED};
use writing::{Report, OUTSIDE};

/// Room that a text leaves.
const SPARE: usize = 2;
/// Flag words that each symbol is compared under; the next symbol has the next ones.
const WORDS: usize = 4;
/// One symbol in so many is tried under all flag words, in every room if its text is short, and with
/// a node too few.
const SAMPLED: usize = 400;
/// A longer text is compared under one flag word.
const LONG: usize = 2000;
const LONGEST_SAMPLED: usize = 1000;

/// What became of the symbols of a source.
#[derive(Default)]
struct Tally {
    symbols: usize,
    pairs: usize,
    apart: usize,
    rooms: usize,
    refusals: usize,
    refused: Reasons,
    traps: Reasons,
    left_out: Reasons,
    different: Differences,
}

impl Tally {
    /// Whether there is a difference.
    fn print(&mut self, source: &str) -> bool {
        let Tally { symbols, pairs, apart, rooms, refusals, .. } = self;
        println!("text, {source}: {} symbols compared with the crate", *symbols + *refusals);
        println!(
            "text, {source}: {symbols} accepted, {pairs} pairs with a flag word have its text; {refusals} refused at its offset"
        );
        println!("text, {source}: {apart} more pairs have the copy's text, with a {CLOSED}");
        println!(
            "text, {source}: {rooms} calls with every room of one accepted symbol in {SAMPLED}"
        );
        self.refused.print(&format!("text, {source}: calls refused as by the model, no text"));
        self.traps.print(&format!("text, {source}: pairs and refusals on which its checks trap"));
        self.left_out.print(&format!("text, {source}: left out"));
        self.different.print(&format!("text, {source}"))
    }
}

struct Comparison {
    table: Vec<u32>,
    words: FlagWords,
    tally: Tally,
}

impl Comparison {
    fn new() -> Comparison {
        let table = vec![0; MOST_NODES * CELLS];
        Comparison { table, words: FlagWords::new(), tally: Tally::default() }
    }

    /// Whether a call is as expected, where the table has so many nodes.
    fn agrees(
        &mut self,
        (symbol, flags): (&str, u32),
        expected: &Expected,
        nodes: usize,
        room: usize,
    ) -> bool {
        let table = &mut self.table[..nodes * CELLS];
        let difference = expected.difference(symbol.as_bytes(), flags, table, room);
        let agrees = difference.is_none();
        difference.into_iter().for_each(|it| self.tally.different.add(symbol.into(), it));
        agrees
    }

    /// A symbol that is not read: nothing is written.
    fn compare_refusal(&mut self, symbol: &str, reading: Report, nodes: usize) {
        if self.agrees((symbol, 0), &Expected { reading, text: b"" }, nodes, SPARE) {
            self.tally.refused.add(format!("with {}", reading.number));
        }
    }

    /// Whether the crate refuses the symbol there, too.
    fn compare_offset(&mut self, symbol: &str, reading: Report) {
        let (theirs, trap) = answers::decided(symbol);
        match refusals::judge(symbol, (reading.number, reading.offset), theirs) {
            Refusal::Same => {
                self.tally.refusals += 1;
                trap.into_iter().for_each(|trap| self.tally.traps.add(trap));
            }
            Refusal::LeftOut(reason) => self.tally.left_out.add(reason),
            Refusal::Different(difference) => self.tally.different.add(symbol.into(), difference),
        }
    }

    /// A table that lacks one node.
    fn compare_full(&mut self, symbol: &str, demands: &Demands) {
        let nodes = demands.counts().1 - 1;
        let reading = expected::reading(symbol.as_bytes(), demands, nodes);
        self.compare_refusal(symbol, reading, nodes);
    }

    /// Every room from none to one larger than the text.
    fn compare_rooms(&mut self, pair: (&str, u32), expected: &Expected) {
        for room in 0..=expected.text.len() + SPARE {
            if !self.agrees(pair, expected, MOST_NODES, room) {
                return;
            }
            self.tally.rooms += 1;
        }
    }

    /// One flag word, in every room if that is asked for. Whether the text is long.
    fn compare_pair(
        &mut self,
        pair: (&str, u32),
        texts: &Texts,
        reading: Report,
        every_room: bool,
    ) -> bool {
        let (Text { own, mended }, trap) = texts.text(pair.1);
        trap.into_iter().for_each(|trap| self.tally.traps.add(trap));
        let expected = Expected { reading, text: mended.as_bytes() };
        if self.agrees(pair, &expected, MOST_NODES, mended.len() + SPARE) {
            match own == mended {
                true => self.tally.pairs += 1,
                false => self.tally.apart += 1,
            }
        }
        if every_room && mended.len() <= LONGEST_SAMPLED {
            self.compare_rooms(pair, &expected);
        }
        mended.len() > LONG
    }

    fn compare_texts(&mut self, symbol: &str, texts: &Texts, demands: &Demands) {
        self.tally.symbols += 1;
        // The crate tells the bytes consumed, the model the counts.
        let reading = expected::reading(symbol.as_bytes(), demands, MOST_NODES);
        let reading = Report { offset: texts.consumed, ..reading };
        let sample = self.tally.symbols / SAMPLED;
        let sampled = self.tally.symbols.is_multiple_of(SAMPLED);
        let words = self.words.next();
        let (first, count) = match sampled {
            true => (sample, words.len()),
            false => (self.tally.symbols * WORDS, WORDS),
        };
        let words = words.iter().cycle().skip(first % words.len()).take(count);
        for (place, flags) in words.enumerate() {
            let pair = (symbol, *flags);
            if self.compare_pair(pair, texts, reading, sampled && place == 0) {
                break;
            }
        }
        if sampled {
            self.compare_full(symbol, demands);
        }
    }

    /// The crate takes symbols of any length.
    fn compare_length(&mut self, symbol: &str) {
        self.compare_refusal(symbol, Report::refusal(OUTSIDE, 0), MOST_NODES);
        self.tally.left_out.add(if symbol.is_empty() { "empty" } else { "over 4,096 bytes" });
    }

    fn compare(&mut self, symbol: &str) {
        if !(1..=LONGEST).contains(&symbol.len()) {
            return self.compare_length(symbol);
        }
        let demands = Demands::of(symbol.as_bytes());
        let reading = expected::reading(symbol.as_bytes(), &demands, MOST_NODES);
        if reading.number != ACCEPTED {
            self.compare_refusal(symbol, reading, MOST_NODES);
        }
        if demands.too_heavy() {
            return self.tally.left_out.add("too heavy for the crate");
        }
        if let Some(reason) = refusals::unasked(symbol, &demands) {
            return self.tally.left_out.add(reason);
        }
        if reading.number != ACCEPTED {
            return self.compare_offset(symbol, reading);
        }
        match Texts::of(symbol) {
            Some(texts) => self.compare_texts(symbol, &texts, &demands),
            None => self.tally.different.add(symbol.into(), "refused by the crate".to_string()),
        }
    }
}

/// Whether the product differs on a symbol.
fn differs(source: &str, symbols: impl Iterator<Item = Vec<u8>>) -> bool {
    let mut comparison = Comparison::new();
    for symbol in symbols {
        match std::str::from_utf8(&symbol) {
            Ok(symbol) if symbol.is_ascii() => comparison.compare(symbol),
            _ => comparison.tally.left_out.add("a byte of 128 or more"),
        }
    }
    comparison.tally.print(source)
}

struct Words {
    count: usize,
    short: usize,
    trial: String,
    lists: Option<String>,
}

fn words() -> Option<Words> {
    let mut words = env::args().skip(1);
    let count = words.next()?.parse().ok()?;
    let short = words.next()?.parse().ok()?;
    Some(Words { count, short, trial: words.next()?, lists: words.next() })
}

fn compare(words: Words) -> io::Result<bool> {
    let Words { count, short, trial, lists } = words;
    let mut failed = false;
    if let Some(lists) = lists {
        failed |= differs("lists", sources::listed(Path::new(&lists))?.into_iter());
    }
    if short > 0 {
        failed |= trial::differs(Path::new(&trial))?;
        failed |= references::differs();
        failed |= differs("short strings", exhaustive::symbols(short));
    }
    if count > 0 {
        failed |= differs("from the grammar", sources::generated(count));
    }
    Ok(failed)
}

fn main() -> io::Result<ExitCode> {
    match words() {
        Some(words) => traps::run("text", || compare(words)),
        None => {
            eprintln!("usage: text COUNT SHORT TRIAL [LISTS]");
            Ok(ExitCode::from(2))
        }
    }
}
