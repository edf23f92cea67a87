//! A plain model of what a reading asks for, written from the scope and the crate's source: which
//! parts it opens and which nodes it counts, where, and how high each node is. It has no limits;
//! the list of its demands says what any budget of depth and nodes gives.
mod names;
mod symbol;
mod types;

use std::collections::hash_map::DefaultHasher;
use std::hash::{Hash, Hasher};

use crate::limits::{ACCEPTED, DEEP, FULL, SYNTAX};

const MOST_COPIED: u64 = 1_000_000;

/// What is asked for, at which offset: a depth, or a number of nodes.
#[derive(Clone, Copy)]
enum Demand {
    Depth(usize, usize),
    Nodes(usize, usize),
}

/// A node, or a list of nodes: its height, a hash of its meaning in place of a tree, and how many
/// nodes that tree would have.
#[derive(Clone, Copy, PartialEq)]
struct Node {
    height: usize,
    meaning: u64,
    weight: u64,
}

/// There is no derivation: the model's place is the offset.
struct Refused;

type Read<T> = Result<T, Refused>;

/// What a reading asks for, and how it ends.
pub struct Demands {
    demands: Vec<Demand>,
    end: (u64, usize),
    /// How many nodes the crate copies, which has a tree where the product has a reference.
    copied: u64,
}

impl Demands {
    pub fn of(symbol: &[u8]) -> Demands {
        let mut model = Model { symbol, ..Model::default() };
        let number = match model.parse() {
            Ok(_) => ACCEPTED,
            Err(Refused) => SYNTAX,
        };
        Demands { end: (number, model.at), demands: model.demands, copied: model.copied }
    }

    /// Whether the crate would have neither time nor memory for its copies: a short symbol can have
    /// a very large tree.
    pub fn too_heavy(&self) -> bool {
        self.copied > MOST_COPIED
    }

    /// The largest depth and the largest number of nodes asked for.
    pub fn counts(&self) -> (usize, usize) {
        self.demands.iter().fold((0, 0), |(depth, nodes), demand| match *demand {
            Demand::Depth(count, _) => (depth.max(count), nodes),
            Demand::Nodes(count, _) => (depth, nodes.max(count)),
        })
    }

    /// The answer's number and offset within budgets, and the nodes counted: the first demand that
    /// passes its budget refuses.
    pub fn within(&self, depth: usize, nodes: usize) -> (u64, usize, usize) {
        let mut counted = 0;
        for demand in &self.demands {
            match *demand {
                Demand::Depth(count, at) if count > depth => return (DEEP, at, counted),
                Demand::Nodes(count, at) if count > nodes => return (FULL, at, counted),
                Demand::Nodes(count, _) => counted = count,
                Demand::Depth(..) => {}
            }
        }
        (self.end.0, self.end.1, counted)
    }
}

#[derive(Default)]
struct Model<'a> {
    symbol: &'a [u8],
    at: usize,
    open: usize,
    nodes: usize,
    demands: Vec<Demand>,
    names: Vec<Node>,
    types: Vec<Node>,
    copied: u64,
}

impl<'a> Model<'a> {
    fn rest(&self) -> &'a [u8] {
        &self.symbol[self.at..]
    }

    fn at_end(&self) -> bool {
        self.rest().is_empty()
    }

    fn consume(&mut self, text: &str) -> bool {
        let there = self.rest().starts_with(text.as_bytes());
        self.at += if there { text.len() } else { 0 };
        there
    }

    fn expect(&mut self, text: &str) -> Read<()> {
        self.consume(text).then_some(()).ok_or(Refused)
    }

    fn get(&mut self) -> Read<u8> {
        let byte = *self.rest().first().ok_or(Refused)?;
        self.at += 1;
        Ok(byte)
    }

    /// One byte out of these, or a refusal behind it.
    fn letter(&mut self, letters: &str) -> Read<u8> {
        let byte = self.get()?;
        letters.as_bytes().contains(&byte).then_some(byte).ok_or(Refused)
    }

    /// One byte out of these, or nothing.
    fn optional(&mut self, letters: &str) -> u8 {
        match self.rest().first() {
            Some(byte) if letters.as_bytes().contains(byte) => {
                self.at += 1;
                *byte
            }
            _ => 0,
        }
    }

    fn digit(&mut self) -> Option<usize> {
        let digit = self.optional("0123456789");
        (digit != 0).then(|| usize::from(digit - b'0'))
    }

    fn string(&mut self) -> Read<&'a [u8]> {
        let rest = self.rest();
        let end = rest.iter().position(|byte| *byte == b'@').ok_or(Refused)?;
        self.at += end + 1;
        Ok(&rest[..end])
    }

    fn hex_digits(&mut self) -> &'a [u8] {
        let rest = self.rest();
        let count = rest.iter().take_while(|byte| byte.is_ascii_hexdigit()).count();
        self.at += count;
        &rest[..count]
    }

    fn number(&mut self) -> Read<i32> {
        let sign = if self.consume("?") { -1 } else { 1 };
        if let Some(digit) = self.digit() {
            return Ok(sign * (digit as i32 + 1));
        }
        let letters = self.rest().iter().take_while(|byte| (b'A'..=b'P').contains(*byte));
        let (mut value, mut count) = (0i32, 0);
        for letter in letters {
            value = (value << 4) + i32::from(letter - b'A');
            count += 1;
        }
        self.at += count;
        self.expect("@")?;
        Ok(value.wrapping_mul(sign))
    }

    /// A part opens before its first byte is taken.
    fn part<T>(&mut self, read: impl FnOnce(&mut Self) -> Read<T>) -> Read<T> {
        self.open += 1;
        self.demands.push(Demand::Depth(self.open, self.at));
        let value = read(self)?;
        self.open -= 1;
        Ok(value)
    }

    fn count(&mut self) {
        self.nodes += 1;
        self.demands.push(Demand::Nodes(self.nodes, self.at));
    }

    /// A node is counted when its part closes: depth is asked for before room.
    fn close(&mut self, own: impl Hash, below: &[Node]) -> Node {
        let node = above(own, below, 1);
        self.demands.push(Demand::Depth(node.height, self.at));
        self.count();
        node
    }

    /// A place of a list adds no height.
    fn place(&mut self, list: &mut Node, entry: Node) {
        self.count();
        *list = above("place", &[*list, entry], 0);
    }

    fn storage_class(&mut self) -> u32 {
        match self.optional("ABCDEFGHQRST") {
            0 => 0,
            letter @ b'A'..=b'H' => u32::from(letter - b'A'),
            letter => u32::from(letter - b'Q'),
        }
    }

    fn qualifier(&mut self) -> u32 {
        match self.optional("ABCDQRST") {
            0 => 0,
            letter @ b'A'..=b'D' => u32::from(letter - b'A'),
            letter => u32::from(letter - b'Q'),
        }
    }

    fn convention(&mut self) -> Read<u8> {
        let letter = self.letter("ABCEGI")?;
        Ok(if letter == b'B' { b'A' } else { letter })
    }

    fn return_class(&mut self) -> Read<u32> {
        match self.consume("?") {
            true => Ok(u32::from(self.letter("ABCD")? - b'A')),
            false => Ok(0),
        }
    }

    /// Letters with the same meaning give the same number.
    fn func_class(&mut self, letter: u8) -> Read<u8> {
        match letter {
            b'G' | b'H' | b'O' | b'P' | b'W' | b'X' => self.number().map(|_| letter),
            b'D' => Ok(b'C'),
            b'F' => Ok(b'E'),
            b'A'..=b'Z' => Ok(letter),
            _ => Err(Refused),
        }
    }

    fn func_qualifiers(&mut self) -> u32 {
        let flags = [self.optional("E"), self.optional("I"), self.optional("F")];
        let reference = self.optional("GH");
        let known = flags.map(|flag| u32::from(flag != 0));
        self.qualifier()
            + 16 * (known[0] + 2 * known[1] + 4 * known[2])
            + 256 * u32::from(reference)
    }
}

const EMPTY: Node = Node { height: 0, meaning: 0, weight: 0 };

/// What stands above some nodes, by what it holds of its own.
fn above(own: impl Hash, below: &[Node], rises: usize) -> Node {
    let mut hasher = DefaultHasher::new();
    own.hash(&mut hasher);
    below.iter().for_each(|node| node.meaning.hash(&mut hasher));
    let height = below.iter().map(|node| node.height).max().unwrap_or(0) + rises;
    let weight = below.iter().fold(1, |weight: u64, node| weight.saturating_add(node.weight));
    Node { height, meaning: hasher.finish(), weight }
}

/// The first ten that differ are stored.
fn store(stored: &mut Vec<Node>, node: Node) {
    if stored.len() < 10 && !stored.contains(&node) {
        stored.push(node);
    }
}
