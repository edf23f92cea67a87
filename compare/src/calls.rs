//! Compares the product's three public calls with the plain model and the crate at their boundary:
//! what each reports, and what it leaves in buffers that have a pattern in and behind them.
//!
//! usage: calls COUNT TRIAL [LISTS]
//!
//! COUNT symbols are made from the grammar, half of them damaged; as many are taken from the cases
//! of the writer's trial program, whose folder is TRIAL, and from LISTS, a folder of *.txt, one
//! symbol a line. Large ones are passed over.
mod asking;
mod budgets;
mod by_copy;
mod by_crate;
mod damage;
mod decode;
mod enums;
mod flags;
mod formed;
mod gates;
mod generate;
mod known;
mod limits;
mod made;
mod model;
mod random;
mod shape;
mod sources;
mod tables;
mod tally;
mod texts;
mod traps;
mod trials;
mod writing;

use std::path::Path;
use std::process::ExitCode;
use std::{env, fs, io};

use flags::FlagWords;
use known::Known;
use random::Random;
use tables::Tables;
use tally::Reasons;
use trials::Trials;

const SEED: u64 = 3;
/// Larger symbols would take too long.
const LONGEST: usize = 300;
const MOST_NODES: usize = 50;
const LONGEST_TEXT: usize = 300;
/// One in so many tables that are small enough is damaged.
const DAMAGED: usize = 4;
const MOST_DAMAGED: usize = 12;
/// Tables that are made at random, for each symbol that is.
const RANDOM_TABLES: usize = 20;

/// So many out of these, spread evenly.
fn spread(symbols: Vec<Vec<u8>>, count: usize) -> impl Iterator<Item = Vec<u8>> {
    let step = (symbols.len() / count.max(1)).max(1);
    symbols.into_iter().step_by(step)
}

/// The symbols of the trial's cases, each behind twelve digits and a space.
fn cases(trial: &Path) -> io::Result<Vec<Vec<u8>>> {
    let cases = fs::read_to_string(trial.join("stdin"))?;
    Ok(cases.lines().filter_map(|case| Some(case.get(13..)?.as_bytes().to_vec())).collect())
}

struct Comparison {
    trials: Trials,
    words: FlagWords,
    random: Random,
    tables: Tables,
    symbols: usize,
    accepted: usize,
    small: usize,
    left_out: Reasons,
}

impl Comparison {
    fn compare_bytes(&mut self, symbol: &[u8]) {
        match std::str::from_utf8(symbol) {
            Ok(text) if text.is_ascii() && (1..=LONGEST).contains(&text.len()) => {
                self.compare(text)
            }
            _ => self.left_out.add("empty, long or a byte of 128 or more, tried by itself"),
        }
    }

    /// All calls on a symbol that is not too large, under some flag word.
    fn compare(&mut self, symbol: &str) {
        let words = self.words.next();
        let known = match Known::of(symbol, words[self.symbols % words.len()]) {
            Ok(Some(known)) => known,
            Ok(None) => return self.left_out.add("too heavy for the crate"),
            Err(difference) => return self.trials.differ(symbol.as_bytes(), difference),
        };
        if known.counts().1 > MOST_NODES || known.text.len() > LONGEST_TEXT {
            return self.left_out.add("many nodes or a long text");
        }
        self.symbols += 1;
        self.trials.add_text(known.own);
        budgets::try_all(&mut self.trials, &known, &mut self.random);
        if known.is_accepted() {
            self.compare_tables(&known);
        }
    }

    /// All calls on the table that the symbol leaves.
    fn compare_tables(&mut self, known: &Known) {
        self.accepted += 1;
        self.tables.try_all(&mut self.trials, known);
        if known.counts().1 > MOST_DAMAGED {
            return;
        }
        self.small += 1;
        if self.small.is_multiple_of(DAMAGED) {
            self.tables.try_damaged(&mut self.trials, known);
            self.tables.try_kinds(&mut self.trials, known);
        }
    }
}

fn compare(count: usize, trial: &Path, lists: Option<String>) -> io::Result<bool> {
    let mut comparison = Comparison {
        trials: Trials::default(),
        words: FlagWords::new(),
        random: Random::new(SEED),
        tables: Tables::new(Random::new(SEED)),
        symbols: 0,
        accepted: 0,
        small: 0,
        left_out: Reasons::default(),
    };
    gates::try_all(&mut comparison.trials);
    made::try_kinds(&mut comparison.tables, &mut comparison.trials);
    made::try_random(&mut comparison.tables, &mut comparison.trials, count * RANDOM_TABLES);
    let mut symbols: Vec<_> = sources::generated(count).collect();
    symbols.extend(spread(cases(trial)?, count));
    if let Some(lists) = lists {
        symbols.extend(spread(sources::listed(Path::new(&lists))?, count));
    }
    symbols.iter().for_each(|symbol| comparison.compare_bytes(symbol));
    let Comparison { symbols, accepted, small, left_out, mut trials, .. } = comparison;
    let damaged = small / DAMAGED;
    println!(
        "calls: {symbols} symbols, {accepted} of them accepted, the tables of {damaged} damaged"
    );
    left_out.print("calls: left out");
    Ok(trials.print())
}

fn main() -> io::Result<ExitCode> {
    let mut words = env::args().skip(1);
    let count = words.next().and_then(|count| count.parse().ok());
    let (Some(count), Some(trial)) = (count, words.next()) else {
        eprintln!("usage: calls COUNT TRIAL [LISTS]");
        return Ok(ExitCode::from(2));
    };
    let lists = words.next();
    traps::run("calls", move || compare(count, Path::new(&trial), lists))
}
