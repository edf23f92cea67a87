//! Damage to a symbol: what a log or a caller may do to it.
use crate::limits::LONGEST;
use crate::random::Random;

/// Letters that begin or end something somewhere.
const LETTERS: &[u8] = b"?????@@@@@$$$0123456789ABCDEFGHIJKLMNOPQRSTUVWXYZ_ax";

/// The symbol damaged in a few places; a piece of `other` may get into it.
pub fn damaged(random: &mut Random, mut symbol: Vec<u8>, other: &[u8]) -> Vec<u8> {
    for _ in 0..random.pick(&[1, 1, 1, 2, 4]) {
        match random.below(8) {
            0 => replace(random, &mut symbol, |random| random.below(128) as u8),
            1 | 2 => replace(random, &mut symbol, |random| random.pick(LETTERS)),
            3 => remove(random, &mut symbol),
            4 => insert(random, &mut symbol),
            5 => swap(random, &mut symbol),
            6 => splice(random, &mut symbol, other),
            _ => truncate(random, &mut symbol),
        }
    }
    symbol.truncate(LONGEST);
    symbol
}

fn place(random: &mut Random, symbol: &[u8]) -> usize {
    random.below(symbol.len() + 1)
}

fn replace(random: &mut Random, symbol: &mut [u8], by: fn(&mut Random) -> u8) {
    let place = place(random, symbol);
    if let Some(byte) = symbol.get_mut(place) {
        *byte = by(random);
    }
}

fn remove(random: &mut Random, symbol: &mut Vec<u8>) {
    let place = place(random, symbol);
    if place < symbol.len() {
        symbol.remove(place);
    }
}

fn insert(random: &mut Random, symbol: &mut Vec<u8>) {
    let place = place(random, symbol);
    symbol.insert(place, random.pick(LETTERS));
}

fn swap(random: &mut Random, symbol: &mut [u8]) {
    let place = place(random, symbol);
    if place + 1 < symbol.len() {
        symbol.swap(place, place + 1);
    }
}

/// A piece of the other symbol, in place of a piece or between two bytes.
fn splice(random: &mut Random, symbol: &mut Vec<u8>, other: &[u8]) {
    let (from, start) = (place(random, symbol), place(random, other));
    let removed = random.below(symbol.len() - from + 1).min(random.below(8));
    let length = random.below(other.len() - start + 1).min(random.pick(&[1, 4, 16, 64]));
    symbol.splice(from..from + removed, other[start..start + length].iter().copied());
}

fn truncate(random: &mut Random, symbol: &mut Vec<u8>) {
    let place = place(random, symbol);
    symbol.truncate(place.max(1));
}
