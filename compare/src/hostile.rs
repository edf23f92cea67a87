//! Symbols made to hurt, through the product's three calls: the processor time of each call, on a
//! small stack.
//!
//! usage: hostile LIMIT STACK [LIST]
//!
//! No call may take more than LIMIT milliseconds; all are made on a thread with a stack of STACK KiB.
//! Each symbol is read into 1,024 nodes and into as many as the longest symbol may have, with room for
//! 4,096 bytes, under two flag words; the table that is left is written alone and asked for its names;
//! of one symbol every prefix is read. Lists of empty packs take as long as the room and their length,
//! multiplied: they have four times LIMIT for each 4,096 bytes of room, and two of them are read with
//! room for 65,536 bytes too. The symbols are written to the file LIST, one a line.
// Of these modules only a part is used here.
#[allow(dead_code)]
mod asking;
#[path = "hostile/clock.rs"]
mod clock;
#[allow(dead_code)]
mod limits;
#[allow(dead_code)]
mod model;
#[path = "hostile/symbols.rs"]
mod symbols;
#[allow(dead_code)]
mod tally;
mod towers;
#[allow(dead_code)]
mod writing;

use std::cmp::Reverse;
use std::process::ExitCode;
use std::time::Duration;
use std::{env, fs, io, thread};

use limits::{ACCEPTED, CELLS, DEEPEST, MOST_NODES};
use symbols::Hostile;
use tally::Reasons;
use writing::Report;

const TABLES: [usize; 2] = [1024, MOST_NODES];
const ROOM: usize = 4096;
const MOST_ROOM: usize = 65536;
/// Empty packs have so many times the limit for each `ROOM` of room.
const BY_ROOM: usize = 4;
/// No bits; and the one by which more entries of a list write nothing.
const FLAGS: [u32; 2] = [0, 0x0010_0000];
/// A call over the limit is made so often: other programs may have slowed it down.
const TIMES: usize = 8;
const SHOWN: usize = 5;

struct Trial {
    limit: Duration,
    room: usize,
    table: Vec<u32>,
    text: Vec<u8>,
    answers: Reasons,
    times: Vec<Timed>,
}

struct Timed {
    time: Duration,
    limit: Duration,
    what: String,
}

impl Timed {
    fn is_slow(&self) -> bool {
        self.time > self.limit
    }
}

impl Trial {
    fn new(limit: Duration) -> Trial {
        let (table, text) = (vec![0; MOST_NODES * CELLS], vec![0; MOST_ROOM]);
        let (answers, times) = (Reasons::default(), Vec::new());
        Trial { limit, room: ROOM, table, text, answers, times }
    }

    fn time(&mut self, what: String, mut call: impl FnMut(&mut [u32], &mut [u8])) {
        let mut least = Duration::MAX;
        for _ in 0..TIMES {
            let text = &mut self.text[..self.room];
            least = least.min(clock::spent(|| call(&mut self.table, text)));
            if least <= self.limit {
                break;
            }
        }
        let what = format!("{what}, in room {}", self.room);
        self.times.push(Timed { time: least, limit: self.limit, what });
    }

    /// A reading; the nodes that it leaves.
    fn read(&mut self, what: &str, symbol: &[u8], flags: u32, nodes: usize) -> usize {
        let mut left = Report::refusal(ACCEPTED, 0);
        self.time(format!("read into {nodes} nodes, {what}"), |table, text| {
            let table = &mut table[..nodes * CELLS];
            left = writing::read(symbol, flags, DEEPEST.into(), table, text);
        });
        self.answers.add(format!("with {}", left.number));
        left.nodes
    }

    fn write(&mut self, what: &str, symbol: &[u8], flags: u32, nodes: usize) {
        self.time(format!("write {nodes} nodes, {what}"), |table, text| {
            asking::write(symbol, flags, DEEPEST.into(), &table[..nodes * CELLS], text);
        });
    }

    fn name(&mut self, what: &str, symbol: &[u8], node: usize, nodes: usize) {
        self.time(format!("name in {nodes} nodes, {what}"), |table, _| {
            asking::name(symbol, &table[..nodes * CELLS], node as u64);
        });
    }

    fn try_symbol(&mut self, Hostile { what, symbol, .. }: &Hostile) {
        for nodes in TABLES {
            for flags in FLAGS {
                let left = self.read(what, symbol, flags, nodes);
                if left > 0 {
                    self.write(what, symbol, flags, left);
                    self.name(what, symbol, if flags == 0 { 0 } else { left - 1 }, left);
                }
            }
        }
    }

    /// Tries something in this room, where the time depends on it.
    fn by_room(&mut self, room: usize, work: impl FnOnce(&mut Trial)) {
        let limit = self.limit;
        self.limit = limit * (BY_ROOM * room / ROOM) as u32;
        self.room = room;
        work(self);
        (self.room, self.limit) = (ROOM, limit);
    }

    fn try_filling(&mut self, Hostile { what, symbol, .. }: &Hostile) {
        self.by_room(MOST_ROOM, |trial| {
            trial.read(what, symbol, FLAGS[0], MOST_NODES);
        });
    }

    fn try_prefixes(&mut self, symbol: &[u8]) {
        for end in 0..symbol.len() {
            self.read("a prefix of a long symbol", &symbol[..end], FLAGS[0], MOST_NODES);
        }
    }

    fn print_slowest(&self, among: impl Fn(&Timed) -> bool) {
        for Timed { time, what, .. } in self.times.iter().filter(|it| among(it)).take(SHOWN) {
            println!("hostile: {:.1} ms: {what}", time.as_secs_f64() * 1000.0);
        }
    }

    /// Whether a call took too long.
    fn print(&mut self) -> bool {
        self.times.sort_by_key(|it| Reverse(it.time));
        self.print_slowest(|it| it.limit != self.limit);
        self.print_slowest(|it| it.limit == self.limit);
        self.answers.print("hostile: readings");
        let slow = self.times.iter().filter(|it| it.is_slow()).count();
        println!(
            "hostile: {} calls, {slow} of them over {} ms of processor time, \
             for empty packs over {BY_ROOM} times that for each {ROOM} bytes of room",
            self.times.len(),
            self.limit.as_millis()
        );
        slow > 0
    }
}

fn is_too_slow(limit: Duration, symbols: Vec<Hostile>) -> bool {
    let mut trial = Trial::new(limit);
    for hostile in &symbols {
        match hostile.by_room {
            true => trial.by_room(ROOM, |trial| trial.try_symbol(hostile)),
            false => trial.try_symbol(hostile),
        }
    }
    symbols::filling().iter().for_each(|hostile| trial.try_filling(hostile));
    trial.try_prefixes(&symbols::long_symbol());
    trial.print()
}

struct Words {
    limit: Duration,
    stack: usize,
    list: Option<String>,
}

fn words() -> Option<Words> {
    let mut words = env::args().skip(1);
    let limit = Duration::from_millis(words.next()?.parse().ok()?);
    Some(Words { limit, stack: words.next()?.parse().ok()?, list: words.next() })
}

fn main() -> io::Result<ExitCode> {
    let Some(Words { limit, stack, list }) = words() else {
        eprintln!("usage: hostile LIMIT STACK [LIST]");
        return Ok(ExitCode::from(2));
    };
    let symbols = symbols::all();
    println!("hostile: {} symbols and the prefixes of one, a stack of {stack} KiB", symbols.len());
    if let Some(list) = list {
        let lines: Vec<_> = symbols.iter().map(|hostile| &hostile.symbol[..]).collect();
        fs::write(list, lines.join(&b'\n'))?;
    }
    let trial = thread::Builder::new().stack_size(stack << 10);
    let slow = trial.spawn(move || is_too_slow(limit, symbols))?.join().unwrap_or(true);
    Ok(ExitCode::from(u8::from(slow)))
}
