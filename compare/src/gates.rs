//! What is refused before anything is read, and symbols at the bounds of what is read.
use crate::asking;
use crate::known::{self, Known, FLAGS};
use crate::limits::{CELLS, DEEPEST, LONGEST, MOST_NODES};
use crate::tables;
use crate::trials::{Call, Outcome, Trials};

const SYMBOLS: [&str; 4] =
    ["?x@@3HA", "?x@@3!A", "??$?DM@std@@YA?AV?$complex@M@0@ABMABV10@@Z", "??0Class@ns@@QAE@PBDHZZ"];
/// Text of the largest symbols.
const ROOM: usize = 3 * LONGEST;

pub fn try_all(trials: &mut Trials) {
    if asking::node_cells() != CELLS {
        trials.differ(b"", format!("{} cells in a node", asking::node_cells()));
    }
    SYMBOLS.iter().for_each(|symbol| try_flags(trials, symbol));
    SYMBOLS.iter().for_each(|symbol| try_high_bytes(trials, symbol.as_bytes()));
    try_lengths(trials);
    try_deep(trials);
    try_order(trials);
}

/// All calls that refuse a call or a symbol; the table is one of another symbol, which 8 would tell.
fn refused(trials: &mut Trials, kind: &str, call: Call) {
    let should = known::refusal(call).map(Outcome::unchanged);
    if let Some(should) = should {
        trials.read(&format!("read, {kind}"), call, (8 * CELLS, 99), &should);
        trials.write(&format!("write, {kind}"), call, (&[0; 2 * CELLS], 99), &should);
    }
    tables::name(trials, &format!("name, {kind}"), call.symbol, &[0; 2 * CELLS], 0);
}

/// A symbol within the largest budgets, and as its table is written alone.
fn within(trials: &mut Trials, kind: &str, symbol: &str, flags: u32, depth: u32) {
    match Known::of(symbol, flags) {
        Ok(Some(known)) => {
            let lent = (MOST_NODES * CELLS, ROOM);
            let (call, should) = (known.call(depth), known.reading(depth, lent));
            trials.read(&format!("read, {kind}"), call, lent, &should);
            let should = known.alone(depth, ROOM);
            trials.write(&format!("write, {kind}"), call, (&known.nodes, ROOM), &should);
        }
        Ok(None) => trials.differ(symbol.as_bytes(), "too heavy for the crate".to_string()),
        Err(difference) => trials.differ(symbol.as_bytes(), difference),
    }
}

/// Each bit alone and with a known one, and the largest depths.
fn try_flags(trials: &mut Trials, symbol: &str) {
    for bit in (0..u32::BITS).map(|bit| 1 << bit) {
        for flags in [bit, bit | 0x1000, bit | 0x2] {
            match flags & !FLAGS {
                0 => within(trials, "each flag", symbol, flags, DEEPEST.into()),
                _ => {
                    let call = Call { symbol: symbol.as_bytes(), flags, depth: 0 };
                    refused(trials, "each unknown flag", call);
                }
            }
        }
    }
    for depth in [0, 199, 200, 201, 1 << 8, 1 << 16, u32::MAX] {
        within(trials, "depths at the bound", symbol, 0, depth);
    }
}

/// A byte of 128 or more at each place, alone and with another behind it.
fn try_high_bytes(trials: &mut Trials, symbol: &[u8]) {
    for place in 0..symbol.len() {
        for byte in [128, 195, 255] {
            let mut high = symbol.to_vec();
            high[place] = byte;
            refused(trials, "a high byte", Call { symbol: &high, flags: 0, depth: 200 });
            *high.last_mut().expect("no symbol is empty") = byte;
            refused(trials, "two high bytes", Call { symbol: &high, flags: 0, depth: 200 });
        }
    }
}

/// Beginnings, what is repeated, and ends of symbols as long as wanted.
const LONG: [(&str, &str, &str); 6] = [
    ("?", "a", "@@3HA"),
    ("?f@@YAX", "H", "@Z"),
    ("?f@@YAX", "PAH", "@Z"),
    ("?x@", "a@", "@3HA"),
    ("?x@@3", "PA", "HA"),
    ("?x@@3HA", "!", ""),
];

fn try_lengths(trials: &mut Trials) {
    for symbol in ["?", "x", "@", "\0"] {
        within(trials, "length 1", symbol, 0, DEEPEST.into());
    }
    for length in [LONGEST - 1, LONGEST, LONGEST + 1] {
        for (start, repeated, end) in LONG {
            let room = length - start.len() - end.len();
            let mut symbol = start.to_string() + &repeated.repeat(room / repeated.len()) + end;
            symbol.extend(std::iter::repeat_n('A', length - symbol.len()));
            match length > LONGEST {
                true => {
                    let call = Call { symbol: symbol.as_bytes(), flags: 0, depth: 200 };
                    refused(trials, "length 4,097", call);
                }
                false => within(trials, "lengths 4,095 and 4,096", &symbol, 0, DEEPEST.into()),
            }
        }
    }
}

/// Depths around the largest: pointers, arrays, nested templates.
fn try_deep(trials: &mut Trials) {
    for levels in 190..=202 {
        let pointers = format!("?x@@3{}HA", "PA".repeat(levels));
        let dimensions = format!("?x@@3PAY{}{}HA", number(levels), "0".repeat(levels));
        let nested = levels / 3;
        let templates = format!("?x@{}H@@{}3HA", "?$a@V".repeat(nested), "@@".repeat(nested));
        for symbol in [pointers, dimensions, templates] {
            within(trials, "around depth 200", &symbol, 0, DEEPEST.into());
            within(trials, "around depth 200", &symbol, 0, 199);
        }
    }
}

/// A number as a symbol has it.
fn number(value: usize) -> String {
    let digits = [value >> 8 & 15, value >> 4 & 15, value & 15];
    digits.iter().map(|digit| char::from(b'A' + *digit as u8)).chain(['@']).collect()
}

/// Calls with more than one thing wrong: 7 comes before 1, and 1 before 2.
fn try_order(trials: &mut Trials) {
    let mut high = b"?x@@3HA".to_vec();
    high.push(255);
    let longer = vec![255; LONGEST + 1];
    for symbol in [&b""[..], b"?x@@3HA", &high, &longer, &longer[1..]] {
        for (flags, depth) in
            [(0, 0), (0, 200), (0, 201), (1, 200), (1 << 31, u32::MAX), (FLAGS, 0)]
        {
            refused(trials, "several refusals", Call { symbol, flags, depth });
        }
    }
}
