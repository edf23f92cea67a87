//! The crate in its two builds. Values come from the unchecked one, where arithmetic wraps; the
//! checked one must read the same, or trap.
use std::panic;

pub use unchecked::{Error, ParseResult};

pub type Reading<'a> = Result<ParseResult<'a>, Error>;

pub fn parse(symbol: &[u8]) -> Reading<'_> {
    unchecked::parse(text(symbol))
}

/// Whether the checked build traps; `None` if it reads otherwise than `reading`.
pub fn traps(symbol: &[u8], reading: &Reading) -> Option<bool> {
    match panic::catch_unwind(|| format!("{:?}", checked::parse(text(symbol)))) {
        Ok(checked) => (checked == format!("{reading:?}")).then_some(false),
        Err(_) => Some(true),
    }
}

fn text(symbol: &[u8]) -> &str {
    std::str::from_utf8(symbol).expect("inputs are ASCII")
}
