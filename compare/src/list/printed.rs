//! What the program `undname` should print for a line, by the crate and the plain model.
use crate::answers;
use crate::limits::{ACCEPTED, DEEPEST, LONGEST, SYNTAX};
use crate::model::Demands;
use crate::refusals::{self, Refusal};
use crate::texts::{Text, Texts, CLOSED};

/// The program's table and room.
pub const NODES: usize = 1024;
const ROOM: usize = 4096;

/// Numbers beside those of a reading: the line is empty or too long; a byte of 128 or more; the text
/// is cut.
const OUTSIDE: u64 = 1;
const HIGH: u64 = 2;
const CUT: u64 = 6;

pub struct Printed {
    pub line: String,
    /// The trap of the crate's checks, or the rule that it does not have.
    pub note: Option<String>,
}

fn refused(number: u64, offset: usize, note: Option<String>) -> Printed {
    Printed { line: format!("no\t{number}\t{offset}"), note }
}

/// An error where the crate does not decide, or decides otherwise than the model.
pub fn printed(line: &[u8]) -> Result<Printed, String> {
    if line.is_empty() || line.len() > LONGEST {
        return Ok(refused(OUTSIDE, 0, None));
    }
    if let Some(high) = line.iter().position(|byte| *byte >= 128) {
        return Ok(refused(HIGH, high, None));
    }
    let symbol = std::str::from_utf8(line).map_err(|error| error.to_string())?;
    let demands = Demands::of(line);
    let (number, offset, _) = demands.within(DEEPEST.into(), NODES);
    match number {
        ACCEPTED | SYNTAX if demands.too_heavy() => Err("too heavy for the crate".to_string()),
        ACCEPTED => accepted(symbol, offset),
        SYNTAX => no_derivation(symbol, offset, &demands),
        _ => Ok(refused(number, offset, None)),
    }
}

fn no_derivation(symbol: &str, offset: usize, demands: &Demands) -> Result<Printed, String> {
    if let Some(rule) = refusals::unasked(symbol, demands) {
        return Ok(refused(SYNTAX, offset, Some(rule.to_string())));
    }
    let (theirs, trap) = answers::decided(symbol);
    match refusals::judge(symbol, (SYNTAX, offset), theirs) {
        Refusal::Different(difference) => Err(difference),
        Refusal::Same => Ok(refused(SYNTAX, offset, trap)),
        Refusal::LeftOut(rule) => Ok(refused(SYNTAX, offset, Some(rule.to_string()))),
    }
}

fn accepted(symbol: &str, offset: usize) -> Result<Printed, String> {
    let texts = Texts::of(symbol).ok_or("refused by the crate")?;
    if texts.consumed != offset {
        return Err(format!("{} bytes consumed by the crate, not {offset}", texts.consumed));
    }
    let (Text { own, mended }, trap) = texts.text(0);
    let note = if own == mended { trap } else { Some(CLOSED.to_string()) };
    match mended.len() > ROOM {
        true => Ok(refused(CUT, offset, note)),
        false => Ok(Printed { line: format!("ok\t{mended}"), note }),
    }
}
