//! A refused symbol, and what the crate says of it.
use crate::answers::{self, Answer};
use crate::fault::NUMBER;
use crate::limits::{DEEP, SYNTAX};
use crate::model::Demands;

const DEEPER: &str = "deeper than 200";
const ESCAPE: &str = "refused by the rule for `?$`";
const NO_DIGIT: &str = "a namespace's `?A0x` with no digit";

/// How the crate stands to a refusal.
pub enum Refusal {
    /// It refuses there, too.
    Same,
    /// It has no such rule, or tells another offset.
    LeftOut(&'static str),
    Different(String),
}

/// Why the crate is not asked about a symbol: where the model ends, at an id with no digit, it reads
/// on, and what it copies there nobody counts.
pub fn unasked(symbol: &str, demands: &Demands) -> Option<&'static str> {
    let (number, end, _) = demands.within(usize::MAX, usize::MAX);
    (number == SYNTAX && answers::refuses_id(symbol, end)).then_some(NO_DIGIT)
}

/// The product refuses with this number at this offset, and the crate answers so.
pub fn judge(symbol: &str, (number, offset): (u64, usize), theirs: Answer) -> Refusal {
    match (number, theirs) {
        (SYNTAX, Err(fault)) if [fault.offset, fault.place] == [offset; 2] => Refusal::Same,
        (SYNTAX, Err(fault)) if fault.place == offset => Refusal::LeftOut(NUMBER),
        (SYNTAX, _) if answers::refuses_escape(symbol, offset) => Refusal::LeftOut(ESCAPE),
        (DEEP, theirs) if offset <= answers::end(theirs) => Refusal::LeftOut(DEEPER),
        _ => Refusal::Different(format!("{number} at {offset}, the crate {theirs:?}")),
    }
}
