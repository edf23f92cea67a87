//! Tables that no reading need leave: a node of each kind with every reference and with numbers at
//! their bounds, and random ones that are well formed.
use crate::formed::{self, Kind, NON_TEMPLATE, PARSE_RESULT};
use crate::known::FLAGS;
use crate::limits::{CELLS, DEEPEST};
use crate::random::Random;
use crate::tables::{self, Tables};
use crate::trials::{Call, Trials};

/// Names in tables are parts of it; nothing reads it.
const SYMBOL: &[u8] = b"?alpha@beta@0xC0DE@";
const KINDS: u32 = 64;
/// Nodes of a random table beside those that every one begins with, and how large its tree may be.
const MOST_NODES: usize = 14;
const LARGEST_TREE: u64 = 300;
/// Kinds that every random table begins with: a name, a symbol, a type, no type.
const FIRST: [u32; 4] = [NON_TEMPLATE, 4, 45, 17];
/// A kind of each thing that a reference may name, each behind what it needs.
const THINGS: [u32; 15] =
    [NON_TEMPLATE, 4, 45, 17, 1, 2, 20, PARSE_RESULT, 5, 6, 7, 11, 13, 18, 60];

type Node = [u32; CELLS];

/// The references that fit a place of a kind.
fn fitting(nodes: &[Node], things: &str) -> Vec<u32> {
    let fits = |reference: &u32| {
        formed::named(nodes, *reference).is_some_and(|(_, thing)| things.contains(thing))
    };
    (0..=nodes.len() as u32).filter(fits).collect()
}

/// Numbers of a kind, small ones and others.
fn numbers(random: &mut Random, kind: &Kind) -> [u32; 4] {
    if kind.bytes {
        let start = random.below(SYMBOL.len());
        return [start as u32, random.below(SYMBOL.len() - start + 1) as u32, 0, 0];
    }
    kind.numbers.map(|largest| match random.below(4) {
        0 => 0,
        1 => largest,
        2 => random.below(8).min(largest as usize) as u32,
        _ => random.below(largest as usize + 1) as u32,
    })
}

/// A node of this kind behind the others; nothing if none of them fits.
fn node(random: &mut Random, nodes: &[Node], number: u32) -> Option<Node> {
    let kind = formed::kind_of(number)?;
    let mut node = [0; CELLS];
    node[0] = number;
    for (place, things) in kind.references.iter().enumerate() {
        let fitting = fitting(nodes, things);
        let last = *fitting.last()?;
        // The latest that fits more often than another.
        node[4 + place] = match random.one_in(2) {
            true => last,
            false => fitting[random.below(fitting.len())],
        };
    }
    node[7..11].copy_from_slice(&numbers(random, &kind));
    Some(node)
}

fn add(random: &mut Random, nodes: &mut Vec<Node>, kind: u32) {
    if let Some(node) = node(random, nodes, kind) {
        nodes.push(node);
        formed::mend_heights(nodes.as_flattened_mut());
    }
}

/// How many nodes the tree of the last node has.
fn tree(nodes: &[Node]) -> u64 {
    let mut sizes: Vec<u64> = vec![0];
    for node in nodes {
        let below = node[4..7].iter().map(|reference| sizes[*reference as usize]);
        sizes.push(below.fold(1, u64::saturating_add));
    }
    sizes[nodes.len()]
}

/// A table of nodes of these kinds.
fn table(random: &mut Random, kinds: &[u32]) -> Vec<Node> {
    let mut nodes = Vec::new();
    kinds.iter().for_each(|kind| add(random, &mut nodes, *kind));
    nodes
}

/// A well-formed table with a root.
fn random_table(random: &mut Random) -> Vec<Node> {
    let mut nodes = table(random, &FIRST);
    for _ in 0..random.below(MOST_NODES) {
        let kind = random.below(KINDS as usize) as u32;
        add(random, &mut nodes, kind);
    }
    add(random, &mut nodes, PARSE_RESULT);
    nodes
}

/// A node behind a table, by whether its plain name is told, and by the writer if it is a root.
fn try_node(tables: &Tables, trials: &mut Trials, nodes: &[Node], node: Node) {
    let mut table = nodes.as_flattened().to_vec();
    table.extend(node);
    formed::mend_heights(&mut table);
    tables::name(trials, "name, kinds at their bounds", SYMBOL, &table, 0);
    if node[0] == PARSE_RESULT && tree(nodes) < LARGEST_TREE {
        let call = Call { symbol: SYMBOL, flags: 0, depth: DEEPEST.into() };
        tables.write(trials, "write, kinds at their bounds", call, &table);
    }
}

/// Each reference of each kind to each thing, itself and one behind; each number at its bounds.
pub fn try_kinds(tables: &mut Tables, trials: &mut Trials) {
    let nodes = table(&mut tables.random, &THINGS);
    for number in 0..=KINDS {
        let Some(right) = node(&mut tables.random, &nodes, number) else {
            let mut unknown = [0; CELLS];
            unknown[0] = number;
            try_node(tables, trials, &nodes, unknown);
            continue;
        };
        for (place, reference) in
            (4..7).flat_map(|place| (0..nodes.len() as u32 + 3).map(move |it| (place, it)))
        {
            let mut node = right;
            node[place] = reference;
            try_node(tables, trials, &nodes, node);
        }
        try_numbers(tables, trials, &nodes, right);
    }
}

fn try_numbers(tables: &Tables, trials: &mut Trials, nodes: &[Node], right: Node) {
    let largest = formed::kind_of(right[0]).map_or([0; 4], |kind| kind.numbers);
    let length = SYMBOL.len() as u32;
    for place in 2..CELLS {
        let bound = if (7..11).contains(&place) { largest[place - 7] } else { right[place] };
        let near = [bound.wrapping_sub(1), bound, bound.wrapping_add(1), 0, 1, u32::MAX];
        for value in near.into_iter().chain([length - 1, length, length + 1]) {
            let mut node = right;
            node[place] = value;
            try_node(tables, trials, nodes, node);
        }
    }
}

/// Random tables, under random flags, by the writer.
pub fn try_random(tables: &mut Tables, trials: &mut Trials, count: usize) {
    for _ in 0..count {
        let nodes = random_table(&mut tables.random);
        if tree(&nodes) < LARGEST_TREE {
            let flags = tables.random.below(1 << 32) as u32 & FLAGS;
            let call = Call { symbol: SYMBOL, flags, depth: DEEPEST.into() };
            tables.write(trials, "write, tables made at random", call, nodes.as_flattened());
        }
    }
}
