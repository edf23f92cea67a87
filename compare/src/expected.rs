//! What a call of the product should report, and leave in the buffer for the text.
use crate::limits::{ACCEPTED, DEEPEST, LONGEST};
use crate::model::Demands;
use crate::writing::{self, Report, CUT, OUTSIDE};

/// What the buffer held before; no text holds it.
const OLD: u8 = 0xAA;
/// Bytes behind the buffer, which no call changes.
const BEHIND: usize = 32;

/// What a reading into a table of so many nodes reports, by the plain model; the text is not counted.
/// The public call refuses an empty symbol before that.
pub fn reading(symbol: &[u8], demands: &Demands, nodes: usize) -> Report {
    if symbol.len() > LONGEST {
        return Report::refusal(OUTSIDE, 0);
    }
    let (number, offset, _) = demands.within(DEEPEST.into(), nodes);
    match number {
        ACCEPTED => {
            let (depth, nodes) = demands.counts();
            Report { number, offset, depth, nodes, text: 0 }
        }
        _ => Report::refusal(number, offset),
    }
}

/// A reading, and the text that follows from it: none where it is refused.
pub struct Expected<'a> {
    pub reading: Report,
    pub text: &'a [u8],
}

impl Expected<'_> {
    /// The report where the buffer has this room.
    pub fn report(&self, room: usize) -> Report {
        let cut = self.reading.number == ACCEPTED && self.text.len() > room;
        let number = if cut { CUT } else { self.reading.number };
        Report { number, text: self.text.len().min(room), ..self.reading }
    }

    /// The text as far as there is room, and old bytes behind it up to `end`.
    pub fn left(&self, room: usize, end: usize, old: u8) -> Vec<u8> {
        let mut left = self.text[..self.text.len().min(room)].to_vec();
        left.resize(end, old);
        left
    }

    /// How a call with this room differs, if it does.
    pub fn difference(
        &self,
        symbol: &[u8],
        flags: u32,
        table: &mut [u32],
        room: usize,
    ) -> Option<String> {
        let mut buffer = vec![OLD; room + BEHIND];
        let ours = writing::read(symbol, flags, DEEPEST.into(), table, &mut buffer[..room]);
        let theirs = self.report(room);
        if ours == theirs && buffer == self.left(room, buffer.len(), OLD) {
            return None;
        }
        let end = buffer.iter().rposition(|byte| *byte != OLD).map_or(0, |last| last + 1);
        let (left, text) = (buffer[..end].escape_ascii(), self.text.escape_ascii());
        Some(format!("flags {flags:#x}, room {room}: {ours:?} `{left}`, not {theirs:?} `{text}`"))
    }
}
