//! The time of the product beside the crate's and, where it is linked, LLVM's, on lists of symbols.
//!
//! usage: bench MOST LIST...      nine rounds of each list, all in turn; the product may take at most
//!                                MOST times as long as the crate on the first, by the median of the
//!                                nine ratios, or the exit status is 1
//!        bench --once WHO LIST   the symbols once, by `product`, `crate` or `LLVM`, for a count of
//!                                instructions
//!
//! One table and one text serve all calls and are not cleared. Before a list is timed each text is
//! held to that of the crate's mended copy; where one differs the list is not timed, and the exit
//! status is 1. LLVM's demangler, which has texts of its own, is linked with `--cfg llvm`.
// Of these modules only a part is used here.
#[allow(dead_code)]
mod limits;
#[allow(dead_code)]
mod writing;

use std::fmt::Display;
use std::hint::black_box;
use std::io::{self, Write};
use std::process::ExitCode;
use std::time::Instant;
use std::{env, fs, thread};

use limits::{ACCEPTED, CELLS, DEEPEST};

const NODES: usize = 4096;
const TEXT: usize = 65536;
const ROUNDS: usize = 9;
/// The best of so many calls is what a symbol takes.
const CALLS: usize = 5;
const STACK_BYTES: usize = 512 << 20;
const USAGE: &str = "usage: bench MOST LIST...  or  bench --once product|crate|LLVM LIST";

/// What the product is lent.
struct Buffers {
    table: Vec<u32>,
    text: Vec<u8>,
}

impl Buffers {
    fn new() -> Buffers {
        Buffers { table: vec![0; NODES * CELLS], text: vec![0; TEXT] }
    }

    /// The text of an answered symbol.
    fn demangle(&mut self, symbol: &str) -> Option<&[u8]> {
        let depth = u32::from(DEEPEST);
        let report = writing::read(symbol.as_bytes(), 0, depth, &mut self.table, &mut self.text);
        (report.number == ACCEPTED).then(|| &self.text[..report.text])
    }
}

struct Symbol<'a> {
    text: &'a str,
    /// The same with a zero behind it, as LLVM takes it.
    #[cfg_attr(not(llvm), allow(dead_code))]
    closed: &'a str,
}

/// One that is timed, and whether it answers a symbol.
struct Side {
    name: &'static str,
    answers: fn(&mut Buffers, &Symbol) -> bool,
}

/// The product is the first: the others are what it is held to.
const SIDES: &[Side] = &[
    Side { name: "product", answers: by_product },
    Side { name: "crate", answers: by_crate },
    #[cfg(llvm)]
    Side { name: "LLVM", answers: by_llvm },
];

#[inline(never)]
fn by_product(buffers: &mut Buffers, symbol: &Symbol) -> bool {
    black_box(buffers.demangle(black_box(symbol.text))).is_some()
}

#[inline(never)]
fn by_crate(_: &mut Buffers, symbol: &Symbol) -> bool {
    let flags = unchecked::DemangleFlags::empty();
    black_box(unchecked::demangle(black_box(symbol.text), flags)).is_ok()
}

#[cfg(llvm)]
#[inline(never)]
fn by_llvm(_: &mut Buffers, symbol: &Symbol) -> bool {
    extern "C" {
        fn llvm_answers(symbol: *const u8, length: usize) -> bool;
    }
    // SAFETY: a zero stands behind the symbol's bytes, which live through the call.
    unsafe { llvm_answers(symbol.closed.as_ptr(), symbol.text.len()) }
}

/// In microseconds.
fn timed<T>(work: impl FnOnce() -> T) -> f64 {
    let start = Instant::now();
    black_box(work());
    start.elapsed().as_secs_f64() * 1e6
}

fn median(mut values: Vec<f64>) -> f64 {
    values.sort_by(f64::total_cmp);
    values[values.len() / 2]
}

/// A list, and what serves the calls on its symbols.
struct Bench<'a> {
    name: &'a str,
    symbols: Vec<Symbol<'a>>,
    buffers: Buffers,
}

impl<'a> Bench<'a> {
    fn new(list: &'a str, data: &'a str) -> Bench<'a> {
        let name = list.rsplit('/').next().unwrap_or(list);
        let symbol = |closed: &'a str| Symbol { text: &closed[..closed.len() - 1], closed };
        let symbols = data.split_inclusive('\0').map(symbol).collect();
        Bench { name, symbols, buffers: Buffers::new() }
    }

    /// The first symbol whose text or refusal is not that of the crate's mended copy.
    fn difference(&mut self) -> Option<&'a str> {
        let mut differs = |symbol| {
            let text = mended::demangle(symbol, mended::DemangleFlags::empty()).ok();
            self.buffers.demangle(symbol) != text.as_deref().map(str::as_bytes)
        };
        self.symbols.iter().map(|symbol| symbol.text).find(|symbol| differs(symbol))
    }

    fn answered(&mut self, side: &Side) -> usize {
        let answers = |symbol: &&Symbol| (side.answers)(&mut self.buffers, symbol);
        self.symbols.iter().filter(answers).count()
    }

    /// The symbol that takes longest, with its time.
    fn slowest(&mut self, side: &Side) -> (f64, &'a str) {
        let mut call = |symbol| timed(|| (side.answers)(&mut self.buffers, symbol));
        let mut best = |symbol| (0..CALLS).map(|_| call(symbol)).fold(f64::INFINITY, f64::min);
        let times = self.symbols.iter().map(|symbol| (best(symbol), symbol.text));
        times.max_by(|one, other| one.0.total_cmp(&other.0)).unwrap_or_default()
    }

    /// The times of each side.
    fn rounds(&mut self) -> Vec<Vec<f64>> {
        let mut times = vec![Vec::new(); SIDES.len()];
        for _ in 0..ROUNDS {
            for (side, own) in SIDES.iter().zip(&mut times) {
                own.push(timed(|| self.answered(side)));
            }
        }
        times
    }

    fn print_side(&mut self, side: &Side, times: &[f64]) -> io::Result<()> {
        let each = median(times.to_vec()) / self.symbols.len() as f64;
        let answered = self.answered(side);
        let (slowest, symbol) = self.slowest(side);
        let start: String = symbol.chars().take(40).collect();
        writeln!(
            io::stdout(),
            "  {}: {each:.2} µs a symbol, {answered} answered; slowest {slowest:.1} µs, {} bytes, {start}",
            side.name,
            symbol.len(),
        )
    }

    /// The product's time by the crate's, or nothing where a text is not the crate's.
    fn run(&mut self) -> io::Result<Option<f64>> {
        let name = self.name;
        if let Some(symbol) = self.difference() {
            writeln!(io::stdout(), "{name}: not timed, the texts differ on {symbol}")?;
            return Ok(None);
        }
        let bytes: usize = self.symbols.iter().map(|symbol| symbol.text.len()).sum();
        let count = self.symbols.len();
        writeln!(
            io::stdout(),
            "{name}: {count} symbols, {bytes} bytes; {ROUNDS} rounds in turn; buffers were not cleared"
        )?;
        let times = self.rounds();
        for (side, own) in SIDES.iter().zip(&times) {
            self.print_side(side, own)?;
        }
        let others = SIDES.iter().zip(&times).skip(1);
        let ratios = others.map(|(side, own)| print_ratio(side, &times[0], own));
        Ok(ratios.collect::<io::Result<Vec<f64>>>()?.first().copied())
    }
}

/// The median of the product's times by another's.
fn print_ratio(side: &Side, product: &[f64], times: &[f64]) -> io::Result<f64> {
    let ratios: Vec<f64> = product.iter().zip(times).map(|(ours, theirs)| ours / theirs).collect();
    let least = ratios.iter().copied().fold(f64::INFINITY, f64::min);
    let greatest = ratios.iter().copied().fold(0.0, f64::max);
    let middle = median(ratios);
    let name = side.name;
    writeln!(
        io::stdout(),
        "  product by {name}: median of the ratios {middle:.3}, from {least:.3} to {greatest:.3}"
    )?;
    Ok(middle)
}

fn fault(what: impl Display) -> io::Error {
    io::Error::other(what.to_string())
}

/// The symbols of a list, each with a zero behind it.
fn symbols(list: &str) -> io::Result<String> {
    let data = fs::read_to_string(list).map_err(|why| fault(format!("{list}: {why}")))?;
    if data.is_empty() {
        return Err(fault(format!("{list} has no symbol")));
    }
    Ok(data.lines().flat_map(|line| [line, "\0"]).collect())
}

/// Whether all lists were timed, and the first within what is asked for.
fn all(most: f64, lists: &[String]) -> io::Result<bool> {
    let mut ratios = Vec::new();
    for list in lists {
        ratios.push(Bench::new(list, &symbols(list)?).run()?);
    }
    let first = ratios[0].unwrap_or_default();
    if first > most {
        let out = &mut io::stdout();
        writeln!(out, "FAILED: {first:.3} of the crate's time on {}, above {most:?}", lists[0])?;
    }
    Ok(first <= most && ratios.iter().all(Option::is_some))
}

fn once(who: &str, list: &str) -> io::Result<bool> {
    let side = SIDES.iter().find(|side| side.name == who).ok_or_else(|| fault(USAGE))?;
    Bench::new(list, &symbols(list)?).answered(side);
    Ok(true)
}

fn run(words: &[String]) -> io::Result<bool> {
    match words {
        [option, who, list] if option == "--once" => once(who, list),
        [most, lists @ ..] if !lists.is_empty() => {
            all(most.parse().map_err(|_| fault(USAGE))?, lists)
        }
        _ => Err(fault(USAGE)),
    }
}

fn main() -> ExitCode {
    let words: Vec<String> = env::args().skip(1).collect();
    let worker = thread::Builder::new().stack_size(STACK_BYTES).spawn(move || run(&words));
    match worker.and_then(|worker| worker.join().expect("none traps on a list")) {
        Ok(held) => ExitCode::from(u8::from(!held)),
        Err(why) => {
            eprintln!("bench: {why}");
            ExitCode::from(2)
        }
    }
}
