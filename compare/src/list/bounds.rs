//! Symbols at the bounds: of depth, of nodes, of the text's room, of length, and of bytes.
use super::printed::NODES;
use crate::limits::{DEEPEST, LONGEST};
use crate::model::Demands;
use crate::texts::Texts;
use crate::towers::TOWERS;

/// Bytes of a line that no buffer of the program holds.
const VERY_LONG: usize = 70_000;

/// An array of so many dimensions, of which the last so many are missing.
fn array(dimensions: usize, missing: usize) -> Vec<u8> {
    let letter = |shift: usize| char::from(b'A' + (dimensions >> shift & 15) as u8);
    let lengths = "0".repeat(dimensions - missing);
    format!("?x@@3Y{}{}@{lengths}HA", letter(4), letter(0)).into_bytes()
}

/// A list of references to one type: each is a node.
fn list(name: &str, references: usize, end: &str) -> Vec<u8> {
    format!("?{name}@@YAXPAH{}{end}", "0".repeat(references)).into_bytes()
}

fn of_nodes(nodes: usize, end: &str) -> Vec<u8> {
    let others = Demands::of(&list("f", 0, "@Z")).counts().1;
    list("f", nodes - others, end)
}

/// With a text of this length.
fn of_text(length: usize, end: &str) -> Vec<u8> {
    const REFERENCES: usize = 600;
    let symbol = String::from_utf8(list("", REFERENCES, "@Z")).expect("the list is ASCII");
    let text = Texts::of(&symbol).expect("the list is a symbol").text(0).0.mended;
    list(&"n".repeat(length - text.len()), REFERENCES, end)
}

/// A variable whose symbol has this length.
fn of_length(length: usize) -> Vec<u8> {
    let name = "n".repeat(length - "?@@3HA".len());
    format!("?{name}@@3HA").into_bytes()
}

fn with_byte(mut symbol: Vec<u8>, place: usize, byte: u8) -> Vec<u8> {
    symbol[place] = byte;
    symbol
}

fn depths(symbols: &mut Vec<Vec<u8>>) {
    let deepest = usize::from(DEEPEST);
    for tower in TOWERS {
        symbols.extend((deepest - 1..=deepest + 1).map(|depth| tower.of_depth(depth)));
        let mut cut = tower.of_depth(deepest + 1);
        cut.truncate(cut.len() / 3);
        symbols.push(cut);
    }
    symbols.extend((deepest - 6..=deepest + 1).map(|dimensions| array(dimensions, 0)));
    symbols.push(array(deepest + 1, deepest - 3));
    symbols.push(b"?x@@3YHPPPPPPP@00HA".to_vec());
}

fn nodes_and_text(symbols: &mut Vec<Vec<u8>>) {
    symbols.extend((NODES - 1..=NODES + 1).map(|nodes| of_nodes(nodes, "@Z")));
    symbols.extend([list("f", NODES - 10, "_"), list("f", NODES, "_"), list("f", 3 * NODES, "@Z")]);
    // too deep and too many: what is met first decides
    let deep = format!("{}H", "PA".repeat(DEEPEST.into()));
    symbols.push(list("f", NODES, &format!("{deep}@Z")));
    symbols.push([b"?f@@YAX", deep.as_bytes(), &list("f", NODES, "@Z")[7..]].concat());
    symbols.extend((LONGEST - 1..=LONGEST + 1).map(|length| of_text(length, "@Z")));
    symbols.push(of_text(LONGEST + 1, "@Zx"));
}

fn lengths(symbols: &mut Vec<Vec<u8>>) {
    symbols.push(b"?".to_vec());
    let lengths = [LONGEST - 1, LONGEST, LONGEST + 1, 2 * LONGEST, VERY_LONG];
    symbols.extend(lengths.map(of_length));
    let high = [(LONGEST, LONGEST - 1), (LONGEST, 1), (LONGEST + 1, 1)];
    symbols.extend(high.map(|(length, place)| with_byte(of_length(length), place, 128)));
}

/// Each byte but the one that ends a line, in a name.
fn bytes(symbols: &mut Vec<Vec<u8>>) {
    let bytes = (0..=u8::MAX).filter(|byte| *byte != b'\n');
    symbols.extend(bytes.map(|byte| with_byte(b"?a_b@@3HA".to_vec(), 2, byte)));
    symbols.extend(
        [&b"?a\x80\xffb@@3HA"[..], b"\x7f", b"\x80", b"\0", b"\r", b" ", b"\t"].map(Vec::from),
    );
    symbols.extend([&b"?x@@3HA\r"[..], b" ?x@@3HA", b"?x@@3HA ", b"?x@@3HA\xff"].map(Vec::from));
}

pub fn symbols() -> Vec<Vec<u8>> {
    let mut symbols = Vec::new();
    depths(&mut symbols);
    nodes_and_text(&mut symbols);
    lengths(&mut symbols);
    bytes(&mut symbols);
    symbols
}
