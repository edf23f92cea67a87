//! The stored output of the writer's trial program, held to the crate's mended copy.
use std::path::Path;
use std::{fs, io};

use crate::expected::{self, Expected};
use crate::limits::{ACCEPTED, MOST_NODES};
use crate::model::Demands;
use crate::tally::Differences;
use crate::texts::{Text, Texts, CLOSED};
use crate::writing::CUT;

/// Bytes behind a text that the program shows, and what they are.
const SHOWN_BEHIND: usize = 3;
const OLD: u8 = b'.';

/// What the program should print for a line: a flag word in eight digits, the room for the text in
/// four, a space, and a symbol; and whether the text is the crate's own. Nothing if the line is none
/// of these, or if the crate refuses a symbol that the model accepts.
fn printed(line: &str) -> Option<(String, bool)> {
    let flags: u32 = line.get(..8)?.parse().ok()?;
    let room: usize = line.get(8..12)?.parse().ok()?;
    let symbol = line.get(13..)?;
    let demands = Demands::of(symbol.as_bytes());
    let reading = expected::reading(symbol.as_bytes(), &demands, MOST_NODES);
    let Text { own, mended } = match reading.number {
        ACCEPTED => Texts::of(symbol)?.text(flags).0,
        _ => Text::default(),
    };
    let expected = Expected { reading, text: mended.as_bytes() };
    let shown = room.min(mended.len() + SHOWN_BEHIND);
    let printed = match expected.report(room).number {
        number @ (ACCEPTED | CUT) => {
            let left = expected.left(room, shown, OLD);
            format!("{line}\t{number}\t{}", String::from_utf8(left).ok()?)
        }
        number => format!("{line}\t{number}"),
    };
    Some((printed, own == mended))
}

/// Whether the stored output of the program in this folder differs from what it should print.
pub fn differs(program: &Path) -> io::Result<bool> {
    let cases = fs::read_to_string(program.join("stdin"))?;
    let stored = fs::read_to_string(program.join("stdout"))?;
    let mut lines = stored.lines();
    let (mut apart, mut different) = (0, Differences::default());
    for case in cases.lines() {
        match (printed(case), lines.next()) {
            (Some((printed, own)), Some(line)) if printed == line => apart += usize::from(!own),
            (printed, line) => {
                different.add(case.into(), format!("{line:?} is stored, and not {printed:?}"));
            }
        }
    }
    if let Some(line) = lines.next() {
        different.add(line.into(), "is stored behind the last case".to_string());
    }
    println!("text, trial: {} cases, {apart} of them with a {CLOSED}", cases.lines().count());
    Ok(different.print("text, trial"))
}
