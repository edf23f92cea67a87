//! The bytes that a leaf is called on.
use std::collections::BTreeSet;

const RANDOM_INPUTS: usize = 4000;
const RANDOM_LETTERS: u64 = 10;

/// From what the inputs of a leaf are made.
pub struct Inputs {
    /// The bytes that matter to the leaf.
    pub alphabet: &'static str,
    /// All strings over the alphabet up to this length are inputs.
    pub depth: usize,
    /// Each stem is an input, alone and before every ASCII byte; random inputs begin with one.
    pub stems: &'static [&'static str],
    /// Boundary cases.
    pub cases: fn() -> Vec<String>,
}

impl Inputs {
    pub fn all(&self, seed: u64) -> BTreeSet<Vec<u8>> {
        let mut inputs = strings(self.alphabet.as_bytes(), self.depth);
        for stem in [""].iter().chain(self.stems) {
            inputs.insert(stem.as_bytes().to_vec());
            inputs.extend((0..128).map(|byte| [stem.as_bytes(), &[byte]].concat()));
        }
        inputs.extend((self.cases)().into_iter().map(String::into_bytes));
        let mut random = Random(seed);
        inputs.extend((0..RANDOM_INPUTS).map(|_| self.random(&mut random)));
        inputs
    }

    fn random(&self, random: &mut Random) -> Vec<u8> {
        let alphabet = self.alphabet.as_bytes();
        let stem = self.stems.get(random.below(self.stems.len() as u64 + 1)).unwrap_or(&"");
        let letters = random.below(RANDOM_LETTERS + 1);
        let mut input = stem.as_bytes().to_vec();
        input.extend((0..letters).map(|_| alphabet[random.below(alphabet.len() as u64)]));
        input
    }
}

fn strings(alphabet: &[u8], depth: usize) -> BTreeSet<Vec<u8>> {
    let mut found = BTreeSet::from([Vec::new()]);
    for _ in 0..depth {
        let longer = found.iter().flat_map(|string| {
            alphabet.iter().map(move |byte| [string.as_slice(), &[*byte]].concat())
        });
        let longer: Vec<_> = longer.collect();
        found.extend(longer);
    }
    found
}

/// The generator of Knuth's MMIX: the same inputs in every run.
struct Random(u64);

impl Random {
    fn below(&mut self, bound: u64) -> usize {
        self.0 = self.0.wrapping_mul(6364136223846793005).wrapping_add(1442695040888963407);
        ((self.0 >> 33) % bound) as usize
    }
}
