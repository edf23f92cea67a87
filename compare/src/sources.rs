//! Where the symbols that are compared come from.
use std::ffi::OsStr;
use std::path::Path;
use std::{fs, io};

use crate::damage;
use crate::generate::Generator;
use crate::random::Random;

const SEED: u64 = 1;

/// The symbols of all lists in the folder: those of *.txt are its lines, and those of *.tsv stand
/// in the second column.
pub fn listed(lists: &Path) -> io::Result<Vec<Vec<u8>>> {
    let mut symbols = Vec::new();
    for entry in fs::read_dir(lists)? {
        let path = entry?.path();
        let column = match path.extension().and_then(OsStr::to_str) {
            Some("txt") => 0,
            Some("tsv") => 1,
            _ => continue,
        };
        let symbol = |line: &[u8]| {
            line.split(|byte| *byte == b'\t').nth(column).unwrap_or_default().to_vec()
        };
        symbols.extend(fs::read(path)?.split(|byte| *byte == b'\n').map(symbol));
    }
    symbols.sort();
    symbols.dedup();
    Ok(symbols)
}

/// Symbols made from the grammar; every other one is damaged.
pub fn generated(count: usize) -> impl Iterator<Item = Vec<u8>> {
    let (mut generator, mut random) = (Generator::new(SEED), Random::new(SEED));
    (0..count).map(move |place| match place % 2 {
        0 => generator.symbol(),
        _ => damage::damaged(&mut random, generator.symbol(), &generator.symbol()),
    })
}
