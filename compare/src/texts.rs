//! The texts of a symbol, under any flag word: by the crate, and by its copy in which an rvalue
//! reference is closed as a reference is. The copy's is the product's.
use std::cell::OnceCell;

use crate::traps;

/// Why a text leaves the comparison with the crate.
pub const CLOSED: &str = "second half of an rvalue reference, which the crate leaves out";

/// A symbol's tree, by both builds of the crate and by its copy.
pub struct Texts<'a> {
    symbol: &'a str,
    /// With its checks, or the name of the trap.
    checked: Result<checked::ParseResult<'a>, String>,
    /// Without them, once it is asked for.
    unchecked: OnceCell<unchecked::ParseResult<'a>>,
    mended: mended::ParseResult<'a>,
    pub consumed: usize,
}

/// The crate's own text under a flag word, and the copy's.
#[derive(Default)]
pub struct Text {
    pub own: String,
    pub mended: String,
}

impl<'a> Texts<'a> {
    /// Nothing where the crate refuses the symbol.
    pub fn of(symbol: &'a str) -> Option<Texts<'a>> {
        let (checked, consumed) = match traps::caught(|| checked::parse_consumed(symbol)) {
            Ok((parsed, consumed)) => (Ok(parsed.ok()?), consumed),
            Err(trap) => {
                let (parsed, consumed) = unchecked::parse_consumed(symbol);
                parsed.ok()?;
                (Err(trap), consumed)
            }
        };
        let mended = mended::parse(symbol).ok()?;
        Some(Texts { symbol, checked, unchecked: OnceCell::new(), mended, consumed })
    }

    fn with_checks(&self, flags: u32) -> Result<String, String> {
        let tree = self.checked.as_ref().map_err(String::clone)?;
        let flags = checked::DemangleFlags::from_bits_retain(flags);
        traps::caught(|| checked::serialize(tree, flags))
    }

    /// The text without the crate's checks, where arithmetic wraps.
    fn without_checks(&self, flags: u32) -> String {
        let flags = unchecked::DemangleFlags::from_bits_retain(flags);
        let parse = || unchecked::parse(self.symbol).expect("both builds accept the symbol");
        unchecked::serialize(self.unchecked.get_or_init(parse), flags)
    }

    /// With the crate's checks; where they trap, without them, and the trap.
    pub fn text(&self, flags: u32) -> (Text, Option<String>) {
        let (own, trap) = match self.with_checks(flags) {
            Ok(text) => (text, None),
            Err(trap) => (self.without_checks(flags), Some(trap)),
        };
        let flags = mended::DemangleFlags::from_bits_retain(flags);
        let mended = mended::serialize(&self.mended, flags);
        (Text { own, mended }, trap)
    }
}
