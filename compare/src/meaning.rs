//! Compares the product's equality of meaning with a plain recursion on small random tables, with a
//! number for each meaning on larger ones, and times it on towers that make a plain recursion
//! exponential and on tables of as many nodes as a symbol of 16,384 bytes may have.
mod decode;

use std::collections::HashMap;
use std::process::ExitCode;
use std::time::{Duration, Instant};

use decode::decoded;

#[link(name = "meaning_export", kind = "static")]
extern "C" {
    fn farthingmoss_same(
        table: *const u32,
        table_len: usize,
        symbol: *const u8,
        symbol_len: usize,
        r: usize,
        q: usize,
    ) -> bool;
}

const CELLS: usize = 12;
const SLOWEST: Duration = Duration::from_millis(20);
/// The fastest of so many counts: the machine may be busy.
const TIMES: usize = 5;

const TYPE_PLACE: u32 = 2;
const SYMBOL: u32 = 4;
const NON_TEMPLATE: u32 = 10;
const TEMPLATE: u32 = 12;
const CONSTANT_STRING: u32 = 27;
const CLASS: u32 = 36;
const INT: u32 = 45;
const BYTES: [u32; 4] = [6, NON_TEMPLATE, 11, 15];

fn same(table: &[u32], symbol: &[u8], r: usize, q: usize) -> bool {
    // SAFETY: both slices live through the call, which only reads them, within their lengths.
    unsafe { farthingmoss_same(table.as_ptr(), table.len(), symbol.as_ptr(), symbol.len(), r, q) }
}

/// What a node is without its references: kind, numbers, bytes.
fn own(cells: &[u32], symbol: &[u8]) -> (u32, Vec<u32>, Vec<u8>) {
    let start = cells[7] as usize;
    let bytes = symbol.get(start..start + cells[8] as usize).unwrap_or(&[]);
    match cells[0] {
        CONSTANT_STRING => (cells[0], cells[9..11].to_vec(), decoded(bytes)),
        kind if BYTES.contains(&kind) => (kind, cells[9..11].to_vec(), bytes.to_vec()),
        kind => (kind, cells[7..11].to_vec(), Vec::new()),
    }
}

/// The reference in cell j of what r names: it names an earlier node or nothing.
fn kid(cells: &[u32], r: usize, j: usize) -> usize {
    match cells[j] as usize {
        reference if reference < r => reference,
        _ => 0,
    }
}

/// The plain recursion: a reference is a node's number and one.
fn plainly_same(table: &[u32], symbol: &[u8], r: usize, q: usize) -> bool {
    if r == 0 || q == 0 {
        return r == q;
    }
    let (a, b) = (&table[(r - 1) * CELLS..r * CELLS], &table[(q - 1) * CELLS..q * CELLS]);
    own(a, symbol) == own(b, symbol)
        && (4..7).all(|j| plainly_same(table, symbol, kid(a, r, j), kid(b, q, j)))
}

/// A number for each reference, the same for those of equal meaning.
fn meanings(table: &[u32], symbol: &[u8]) -> Vec<usize> {
    let mut known = HashMap::new();
    let mut numbers = vec![0];
    for (n, cells) in table.chunks_exact(CELLS).enumerate() {
        let kids = [4, 5, 6].map(|j| numbers[kid(cells, n + 1, j)]);
        let next = known.len() + 1;
        numbers.push(*known.entry((own(cells, symbol), kids)).or_insert(next));
    }
    numbers
}

/// A small generator with a fixed seed, so that each run tries the same tables.
struct Random(u64);

impl Random {
    fn below(&mut self, bound: u32) -> u32 {
        self.0 = self.0.wrapping_mul(6364136223846793005).wrapping_add(1442695040888963407);
        (self.0 >> 33) as u32 % bound
    }
}

/// Nodes of a few kinds, half of them like an earlier one, so that many are equal.
fn random_table(random: &mut Random, nodes: u32) -> Vec<u32> {
    const KINDS: [u32; 6] = [TYPE_PLACE, NON_TEMPLATE, CONSTANT_STRING, CLASS, INT, 0];
    let mut table = Vec::new();
    for n in 0..nodes {
        if n > 0 && random.below(2) == 0 {
            let earlier = random.below(n) as usize * CELLS;
            table.extend_from_within(earlier..earlier + CELLS);
            continue;
        }
        let kind = KINDS[random.below(6) as usize];
        // Now and then a reference to the node itself or behind it, which means nothing.
        let references = [0; 3].map(|_| random.below(n + 2));
        let numbers = [0; 4].map(|_| random.below(4) * random.below(2));
        table.extend([kind, 0, 0, 0].iter().chain(&references).chain(&numbers).chain(&[0]));
    }
    table
}

fn random_tables_differ(tables: usize) -> bool {
    let symbols: [&[u8]; 4] = [b"aa?$GBaa", b"a?$GBa?0", b"?aa?Aa?$", b""];
    let mut random = Random(1);
    let (mut compared, mut equal) = (0usize, 0usize);
    for _ in 0..tables {
        let nodes = 2 + random.below(8);
        let table = random_table(&mut random, nodes);
        let symbol = symbols[random.below(4) as usize];
        for (r, q) in (0..=nodes as usize).flat_map(|r| (0..=r).map(move |q| (r, q))) {
            let plainly = plainly_same(&table, symbol, r, q);
            compared += 1;
            equal += usize::from(plainly && r != q);
            if same(&table, symbol, r, q) != plainly {
                println!("meaning: references {r} and {q} differ in {table:?} of {symbol:?}");
                return true;
            }
        }
    }
    println!(
        "meaning: {compared} pairs in {tables} random tables as by a plain recursion, \
         {equal} of different nodes equal"
    );
    false
}

/// The nodes of a large table, and of a layer of it.
const NODES: u32 = 300;
const LAYER: u32 = 6;

/// On tables of so many nodes that most questions are answered with links.
fn large_tables_differ(tables: usize) -> bool {
    let symbol = b"aa?$GBaa";
    let mut random = Random(2);
    let (mut compared, mut equal) = (0usize, 0usize);
    for _ in 0..tables {
        let table = large_table(&mut random);
        let numbers = meanings(&table, symbol);
        for _ in 0..100 {
            let layer = random.below(NODES / LAYER) * LAYER;
            let [r, q] = [0; 2].map(|_| (layer + 1 + random.below(LAYER)) as usize);
            let expected = numbers[r] == numbers[q];
            compared += 1;
            equal += usize::from(expected && r != q);
            if same(&table, symbol, r, q) != expected {
                println!("meaning: references {r} and {q} differ in {table:?}");
                return true;
            }
        }
    }
    println!(
        "meaning: {compared} pairs in {tables} tables of {NODES} nodes as by numbers of meanings, \
         {equal} of different nodes equal"
    );
    false
}

/// Layers of nodes that refer to the layer below, in few ways, so that many are equal and all are large.
fn large_table(random: &mut Random) -> Vec<u32> {
    let (kinds, ways) = (1 + random.below(2), 1 + random.below(LAYER));
    let mut table = Vec::new();
    for n in 0..NODES {
        let below = (n / LAYER).saturating_sub(1) * LAYER;
        let mut reference = || if n < LAYER { 0 } else { below + 1 + random.below(ways) };
        let references = [reference(), reference(), reference()];
        let kind = [TYPE_PLACE, CLASS][random.below(kinds) as usize];
        table.extend([kind, 0, 0, 0].iter().chain(&references).chain(&[0; 5]));
    }
    table
}

/// A class whose template arguments are `width` times the tower below it; its reference.
fn tower(table: &mut Vec<u32>, levels: usize, width: usize) -> u32 {
    let mut node = |kind: u32, a: u32, b: u32, numbers: [u32; 2]| {
        table.extend([kind, 0, 0, 0, a, b, 0, numbers[0], numbers[1], 0, 0, 0]);
        (table.len() / CELLS) as u32
    };
    let mut top = node(INT, 0, 0, [0, 0]);
    for _ in 0..levels {
        let name = node(NON_TEMPLATE, 0, 0, [0, 1]);
        let list = (0..width).fold(0, |before, _| node(TYPE_PLACE, before, top, [0, 0]));
        let template = node(TEMPLATE, name, list, [0, 0]);
        let symbol = node(SYMBOL, template, 0, [0, 0]);
        top = node(CLASS, symbol, 0, [0, 0]);
    }
    top
}

/// A list of so many places of one entry; its reference.
fn list(table: &mut Vec<u32>, places: usize) -> u32 {
    let mut before = 0;
    table.extend([INT, 0, 0, 0, 0, 0, 0, 0, 0, 0, 0, 0]);
    let entry = (table.len() / CELLS) as u32;
    for _ in 0..places {
        table.extend([TYPE_PLACE, 0, 0, 0, before, entry, 0, 0, 0, 0, 0, 0]);
        before = (table.len() / CELLS) as u32;
    }
    before
}

/// The same list with an entry of its own for each place.
fn spelled(table: &mut Vec<u32>, places: usize) -> u32 {
    let mut before = 0;
    for _ in 0..places {
        table.extend([INT, 0, 0, 0, 0, 0, 0, 0, 0, 0, 0, 0]);
        let entry = (table.len() / CELLS) as u32;
        table.extend([TYPE_PLACE, 0, 0, 0, before, entry, 0, 0, 0, 0, 0, 0]);
        before = entry + 1;
    }
    before
}

/// Whether the comparison of two equal things, built apart in one table, is slow or says no.
fn is_slow(what: &str, build: impl Fn(&mut Vec<u32>) -> u32) -> bool {
    are_slow(what, &build, &build)
}

fn are_slow(
    what: &str,
    first: impl Fn(&mut Vec<u32>) -> u32,
    second: impl Fn(&mut Vec<u32>) -> u32,
) -> bool {
    let mut table = Vec::new();
    let (r, q) = (first(&mut table) as usize, second(&mut table) as usize);
    let mut equal = true;
    let time = (0..TIMES).map(|_| {
        let start = Instant::now();
        equal &= same(&table, b"a", r, q);
        start.elapsed()
    });
    let time = time.min().unwrap_or(Duration::MAX);
    println!("meaning: two {what} compared in {time:.1?}");
    !equal || time > SLOWEST
}

fn main() -> ExitCode {
    let failed = random_tables_differ(20_000)
        | large_tables_differ(500)
        | is_slow("towers of 60 levels, two references each", |t| tower(t, 60, 2))
        | is_slow("towers of 60 levels, four references each", |t| tower(t, 60, 4))
        | is_slow("towers of 100 levels, 150 references each", |t| tower(t, 100, 150))
        | is_slow("lists of 16,000 places", |t| list(t, 16_000))
        | are_slow(
            "lists of 10,000 places, one of one entry",
            |t| spelled(t, 10_000),
            |t| list(t, 10_000),
        );
    ExitCode::from(u8::from(failed))
}
