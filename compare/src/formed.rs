//! Whether a node table is well formed, plainly, as `docs/NODES.md` says.
use crate::limits::CELLS;

/// Kinds that a table is asked for.
pub const PARSE_RESULT: u32 = 3;
pub const NON_TEMPLATE: u32 = 10;

const ANY: u32 = u32::MAX;
/// The largest storage class.
const CLASS: u32 = 511;

/// What a kind is, which things its references may name (`-` is nothing), and its largest numbers.
pub struct Kind {
    is: char,
    pub references: [&'static str; 3],
    pub numbers: [u32; 4],
    /// Whether the first two numbers are a start and a length in the symbol.
    pub bytes: bool,
}

fn kind(is: char, references: [&'static str; 3], numbers: [u32; 4]) -> Option<Kind> {
    Some(Kind { is, references, numbers, bytes: false })
}

/// A kind without references.
fn leaf(is: char, numbers: [u32; 4]) -> Option<Kind> {
    kind(is, ["-"; 3], numbers)
}

fn bytes(is: char) -> Option<Kind> {
    Some(Kind { is, references: ["-"; 3], numbers: [ANY, ANY, 0, 0], bytes: true })
}

/// The kinds by number. Things: `N` and `L` places of names and types, `R` parsed, `s` symbol, `o`
/// outer symbol, `5` MD5 name, `+` operator name, `p` plain, `c` scoped and `n` nested name, `0` no
/// type, `O` outer type, `t` type, `f` function, `v` VarArgs.
pub fn kind_of(number: u32) -> Option<Kind> {
    match number {
        1 => kind('N', ["N-", "pcn", "-"], [0; 4]),
        2 => kind('L', ["L-", "tfv", "-"], [0; 4]),
        PARSE_RESULT => kind('R', ["so", "0Of", "-"], [1 << 31, 0, 0, 0]),
        4 => kind('s', ["pc+", "N-", "-"], [0; 4]),
        5 => kind('o', ["pcn5", "N-", "-"], [0; 4]),
        6 => bytes('5'),
        7 => leaf('+', [74, 0, 0, 0]),
        8 => kind('+', ["tf", "-", "-"], [CLASS, 0, 0, 0]),
        9 => leaf('+', [ANY; 4]),
        NON_TEMPLATE => bytes('p'),
        11 | 15 => bytes('c'),
        12 => kind('p', ["p+", "L-", "-"], [0; 4]),
        13 => leaf('n', [ANY, 0, 0, 0]),
        14 => kind('n', ["R", "-", "-"], [0; 4]),
        16 => leaf('n', [0; 4]),
        17 => leaf('0', [0; 4]),
        18 => kind('O', ["tf0", "L-", "-"], [CLASS, 4, 255, 0]),
        19 => kind('t', ["tf0", "L-", "s"], [CLASS, 4, 255, 0]),
        20 => kind('f', ["tf", "L-", "-"], [CLASS, 4, 0, 0]),
        21 | 22 => kind('O', ["N-", "-", "-"], [CLASS, 0, 0, 0]),
        23 => leaf('O', [ANY, 4, 0, 0]),
        24 | 26 => leaf('t', [ANY, 0, 0, 0]),
        25 => leaf('O', [ANY, 0, 0, 0]),
        27 => bytes('O'),
        28..=30 => kind('t', ["tf", "-", "-"], [CLASS, 0, 0, 0]),
        31 => kind('t', ["tf", "-", "-"], [CLASS, ANY, 0, 0]),
        32 => kind('O', ["tf", "-", "-"], [CLASS, 4, 0, 0]),
        33..=37 => kind('t', ["s", "-", "-"], [CLASS, 0, 0, 0]),
        38..=59 => leaf('t', [CLASS, 0, 0, 0]),
        60 => leaf('v', [0; 4]),
        61 | 62 => leaf('t', [0; 4]),
        63 => leaf('O', [0; 4]),
        _ => None,
    }
}

/// A table's whole nodes.
pub fn nodes(table: &[u32]) -> &[[u32; CELLS]] {
    table.as_chunks().0
}

/// The height and the thing that a reference to one of these nodes names; nothing if to none of them.
pub fn named(nodes: &[[u32; CELLS]], reference: u32) -> Option<(u32, char)> {
    match reference.checked_sub(1) {
        None => Some((0, '-')),
        Some(place) => {
            let node = nodes.get(place as usize)?;
            Some((node[1], kind_of(node[0])?.is))
        }
    }
}

/// Whether a node behind these is well formed.
fn is_node_formed(before: &[[u32; CELLS]], node: &[u32; CELLS], symbol_length: usize) -> bool {
    let Some(kind) = kind_of(node[0]) else {
        return false;
    };
    let mut height = u64::from(node[0] > 2);
    let mut highest = 0;
    for (reference, things) in node[4..7].iter().zip(kind.references) {
        match named(before, *reference) {
            Some((below, thing)) if things.contains(thing) => highest = highest.max(below),
            _ => return false,
        }
    }
    height += u64::from(highest);
    let end = u64::from(node[7]) + u64::from(node[8]);
    height == u64::from(node[1])
        && [node[2], node[3], node[11]] == [0; 3]
        && node[7..11].iter().zip(kind.numbers).all(|(number, largest)| *number <= largest)
        && (!kind.bytes || end <= symbol_length as u64)
}

pub fn is_well_formed(table: &[u32], symbol_length: usize) -> bool {
    let nodes = nodes(table);
    let formed = |place: usize| is_node_formed(&nodes[..place], &nodes[place], symbol_length);
    (0..nodes.len()).all(formed)
}

/// The root's height if the table is one for the writer: well formed, and its last node a root.
pub fn root_height(table: &[u32], symbol_length: usize) -> Option<usize> {
    let root = nodes(table).last().filter(|node| node[0] == PARSE_RESULT)?;
    is_well_formed(table, symbol_length).then_some(root[1] as usize)
}

/// Puts each height right that references to earlier nodes allow.
pub fn mend_heights(table: &mut [u32]) {
    for place in 0..table.len() / CELLS {
        let (before, rest) = table.split_at_mut(place * CELLS);
        let heights = rest[4..7].iter().map(|reference| {
            let node =
                (*reference as usize).checked_sub(1).and_then(|node| nodes(before).get(node));
            node.map_or(0, |node| node[1])
        });
        let highest = heights.max().unwrap_or(0);
        rest[1] = highest.saturating_add(u32::from(rest[0] > 2));
    }
}
