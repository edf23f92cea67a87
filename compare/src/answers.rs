//! What the crate answers to a symbol: the bytes consumed, or the refusal.
use unchecked::ParseResult;

use crate::fault::Fault;
use crate::traps;

pub type Answer = Result<usize, Fault>;

/// With the crate's checks, or the name of the trap.
fn checked(symbol: &str) -> Result<Answer, String> {
    traps::caught(|| match checked::parse_consumed(symbol) {
        (Ok(_), consumed) => Ok(consumed),
        (Err(error), _) => Err(Fault::of(symbol.as_bytes(), error.offset(), &error.to_string())),
    })
}

/// Without them, where arithmetic wraps, and the tree.
pub fn unchecked(symbol: &str) -> (Answer, Option<ParseResult<'_>>) {
    match unchecked::parse_consumed(symbol) {
        (Ok(tree), consumed) => (Ok(consumed), Some(tree)),
        (Err(error), _) => {
            (Err(Fault::of(symbol.as_bytes(), error.offset(), &error.to_string())), None)
        }
    }
}

/// With its checks; where they trap, without them, and the trap.
pub fn decided(symbol: &str) -> (Answer, Option<String>) {
    match checked(symbol) {
        Ok(answer) => (answer, None),
        Err(trap) => (unchecked(symbol).0, Some(trap)),
    }
}

/// How far the crate has come.
pub fn end(answer: Answer) -> usize {
    answer.unwrap_or_else(|fault| fault.offset)
}

/// How far it comes in a symbol that ends with this byte.
fn end_behind(before: &str, byte: u8) -> usize {
    end(unchecked(&format!("{before}{}", char::from(byte))).0)
}

/// Whether the refusal stands just behind a wrong letter of `?$` in a string, which the product
/// refuses and the crate does not. Nowhere else does the crate take any byte at all.
pub fn refuses_escape(symbol: &str, offset: usize) -> bool {
    let Some(before) = offset.checked_sub(1).map(|before| &symbol[..before]) else {
        return false;
    };
    let wrong = !matches!(symbol.as_bytes()[offset - 1], b'A'..=b'P');
    wrong && (0..128).all(|byte| end_behind(before, byte) == offset)
}

/// Whether the refusal stands between the `?A0x` and the `@` of a namespace, where the product asks
/// for a digit and the crate reads on. Only there, behind these bytes, it takes a digit and an `@`,
/// but no `g`: a plain name with no `@` is refused at its start, and a string takes the `g`.
pub fn refuses_id(symbol: &str, offset: usize) -> bool {
    let (before, behind) = symbol.split_at(offset);
    let next = [(b'g', offset), (b'0', offset + 1), (b'@', offset + 1)];
    before.ends_with("?A0x")
        && behind.starts_with('@')
        && next.iter().all(|(byte, end)| end_behind(before, *byte) == *end)
}
