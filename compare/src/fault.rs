//! A refusal of the crate, and where the product should refuse the same symbol. The two differ for a
//! bad number: the crate tells where its letters start, the product where the wrong byte stands.

/// What the crate's `read_number` says, and nothing else in it.
const BAD_NUMBER: &str = "bad number (";

pub const NUMBER: &str = "refused at a number's wrong byte, by the crate at its first letter";

#[derive(Clone, Copy, Debug, PartialEq)]
pub struct Fault {
    /// Where the crate refuses.
    pub offset: usize,
    /// Where the product should.
    pub place: usize,
}

impl Fault {
    /// From what an error of either build tells.
    pub fn of(symbol: &[u8], offset: Option<usize>, words: &str) -> Fault {
        let offset = offset.expect("parse errors have an offset");
        let letters = symbol[offset..].iter().take_while(|byte| matches!(byte, b'A'..=b'P'));
        let behind = if words.starts_with(BAD_NUMBER) { letters.count() } else { 0 };
        Fault { offset, place: offset + behind }
    }
}
