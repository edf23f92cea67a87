//! Compares each leaf of the product with the crate, call by call.
//!
//! The crate shows its leaves only through `parse`. So the bytes that a leaf is called on stand in
//! a symbol, behind a prefix after which the crate reads this leaf. Where the product refuses, the
//! crate must refuse there, or, for a bad number, at its first letter. Where it accepts, the crate
//! must refuse the rest of the bytes where the reading after the leaf does, which shows how many
//! bytes the leaf took; and the bytes taken with a tail that suits them must make a symbol in whose
//! tree the leaf's value stands.
mod cases;
mod enums;
mod fault;
mod follow;
mod forms;
mod inputs;
mod product;
mod reference;
mod table;
mod tree;

use std::process::ExitCode;

use fault::{Fault, NUMBER};
use product::Answer;
use reference::{Error, Reading};
use table::{Leaf, LEAVES};
use tree::Seen;

const SHOWN_DIFFERENCES: usize = 5;
const ESCAPE_LEAF: u32 = 9;

/// One call of a leaf; the bytes begin behind the leaf's prefix.
struct Call<'a> {
    leaf: &'a Leaf,
    bytes: &'a [u8],
    answer: Answer,
    trapped: bool,
    /// Refused at a number's wrong byte, by the crate at its first letter.
    moved: bool,
}

impl Call<'_> {
    fn at(&self) -> usize {
        self.leaf.prefix.len()
    }

    fn symbol(&self, bytes: &[u8], tail: &str) -> Vec<u8> {
        [self.leaf.prefix.as_bytes(), bytes, tail.as_bytes()].concat()
    }

    fn read<'s>(&mut self, symbol: &'s [u8]) -> Result<Reading<'s>, String> {
        let reading = reference::parse(symbol);
        match reference::traps(symbol, &reading) {
            Some(trapped) => self.trapped |= trapped,
            None => return Err("the two builds of the crate read differently".to_string()),
        }
        Ok(reading)
    }

    /// The crate must refuse the bytes; `place` tells where, by its fault.
    fn crate_refuses(
        &mut self,
        offset: usize,
        place: fn(&Fault) -> usize,
    ) -> Result<Fault, String> {
        let symbol = self.symbol(self.bytes, "");
        let reading = self.read(&symbol)?;
        let fault = |error: &Error| Fault::of(&symbol, error.offset(), &error.to_string());
        match reading.as_ref().map_err(fault) {
            Err(fault) if place(&fault) == offset => Ok(fault),
            other => Err(format!("no refusal at {offset} in {}: {other:?}", show(&symbol))),
        }
    }

    /// The value that the crate shows for a leaf of these bytes.
    fn crate_value(&mut self, bytes: &[u8]) -> Result<Option<u64>, String> {
        let symbol = self.symbol(bytes, (self.leaf.tail)(&self.answer, bytes));
        let reading = self.read(&symbol)?;
        let seen = Seen { symbol: &symbol, at: self.at(), answer: self.answer, reading: &reading };
        Ok((self.leaf.value)(&seen))
    }

    fn compare_accepted(&mut self) -> Result<(), String> {
        let Answer { taken, value, start, .. } = self.answer;
        if taken > self.bytes.len() || start > if self.leaf.has_start { taken } else { 0 } {
            return Err("no such place in the input".to_string());
        }
        let (bytes, rest) = self.bytes.split_at(taken);
        if let Some(offset) = (self.leaf.stop)(&self.answer, rest) {
            self.crate_refuses(self.at() + taken + offset, |fault| fault.offset)?;
        }
        if !(self.leaf.has_value)(&self.answer) {
            return Ok(());
        }
        let symbol = self.symbol(bytes, (self.leaf.tail)(&self.answer, bytes));
        let again = product::answer(self.leaf.number, &symbol, self.at());
        if again != self.answer {
            return Err(format!("the product in {}: {again:?}", show(&symbol)));
        }
        match self.crate_value(bytes)? {
            Some(same) if same == value => Ok(()),
            other => Err(format!("the crate's value in {}: {other:?}", show(&symbol))),
        }
    }

    fn compare_refused(&mut self) -> Result<(), String> {
        if (self.answer.value, self.answer.start) != (0, 0) {
            return Err("a refusal has no value".to_string());
        }
        if self.leaf.refusal_shows {
            let offset = self.at() + self.answer.taken;
            let fault = self.crate_refuses(offset, |fault| fault.place)?;
            self.moved = fault.offset != offset;
            return Ok(());
        }
        if self.answer.taken != 0 {
            return Err("nothing is taken where there is no value".to_string());
        }
        for taken in 0..=self.bytes.len() {
            if let Some(value) = self.crate_value(&self.bytes[..taken])? {
                return Err(format!("the crate's value of the first {taken} bytes: {value}"));
            }
        }
        Ok(())
    }

    fn compare(&mut self) -> Result<(), String> {
        match self.answer.number {
            product::ACCEPTED => self.compare_accepted(),
            product::REFUSED => self.compare_refused(),
            _ => Err("no such answer".to_string()),
        }
    }
}

fn show(bytes: &[u8]) -> impl std::fmt::Display + '_ {
    bytes.escape_ascii()
}

#[derive(Default)]
struct Tally {
    equal: usize,
    moved: usize,
    trapped: usize,
    outside: usize,
    different: usize,
}

impl Tally {
    fn add(&mut self, other: &Tally) {
        self.equal += other.equal;
        self.moved += other.moved;
        self.trapped += other.trapped;
        self.outside += other.outside;
        self.different += other.different;
    }

    fn print(&self, what: &str) {
        let Tally { equal, moved, trapped, outside, different } = self;
        let some = |count: &usize, what| match count {
            0 => String::new(),
            _ => format!(", {count} {what}"),
        };
        let (moved, different) = (some(moved, NUMBER), some(different, "DIFFERENT"));
        println!(
            "{what}: {equal} calls equal{moved}, {trapped} traps of the checked crate, \
             {outside} outside the comparison{different}"
        );
    }
}

fn compare_leaf(leaf: &Leaf) -> Tally {
    let mut tally = Tally::default();
    for bytes in leaf.inputs.all(u64::from(leaf.number)) {
        if (leaf.outside)(&bytes) {
            tally.outside += 1;
            continue;
        }
        let symbol = [leaf.prefix.as_bytes(), &bytes].concat();
        let answer = product::answer(leaf.number, &symbol, leaf.prefix.len());
        let mut call = Call { leaf, bytes: &bytes, answer, trapped: false, moved: false };
        let compared = call.compare();
        tally.trapped += usize::from(call.trapped);
        match compared {
            Ok(()) if call.moved => tally.moved += 1,
            Ok(()) => tally.equal += 1,
            Err(difference) => {
                tally.different += 1;
                if tally.different <= SHOWN_DIFFERENCES {
                    println!(
                        "leaf {} on `{}`: {answer:?}, but {difference}",
                        leaf.name,
                        show(&bytes)
                    );
                }
            }
        }
    }
    tally.print(&format!("leaf {}", leaf.name));
    tally
}

/// The calls that no leaf answers: of a leaf that is not there, and without room for an answer.
fn unanswered_calls_differ() -> bool {
    let unknown = [LEAVES.len() as u32, u32::MAX].map(|leaf| product::answer(leaf, b"?a@@3HA", 1));
    let mut short = [u64::MAX; 3];
    product::call(LEAVES[0].number, b"?a@@3HA", 1, &mut short);
    let differ =
        unknown.iter().any(|answer| (answer.number, answer.taken) != (product::NO_LEAF, 0))
            || short != [u64::MAX; 3];
    if differ {
        println!("unanswered calls: {unknown:?}, without room {short:?}");
    }
    differ
}

/// The product's own rule for `?$`: both letters are A to P, or the refusal stands behind the wrong one.
fn wrong_escapes_differ() -> bool {
    let right = |letter: u8| (b'A'..=b'P').contains(&letter);
    let pairs = (0..=255).flat_map(|high| (0..=255).map(move |low| (high, low)));
    let mut wrong = pairs.filter(|&(high, low)| !right(high) || !right(low));
    let differs = wrong.find(|&(high, low)| {
        let taken = if right(high) { 4 } else { 3 };
        let refused = Answer { number: product::REFUSED, taken, value: 0, start: 0 };
        product::answer(ESCAPE_LEAF, &[b'?', b'$', high, low], 0) != refused
    });
    if let Some((high, low)) = differs {
        println!("leaf {ESCAPE_LEAF} on `?$` and the bytes {high} {low}: not refused by its rule");
    }
    differs.is_some()
}

fn main() -> ExitCode {
    std::panic::set_hook(Box::new(|_| {}));
    let mut total = Tally::default();
    for leaf in &LEAVES {
        total.add(&compare_leaf(leaf));
    }
    total.print(&format!("leaves: {} leaves", LEAVES.len()));
    let apart = unanswered_calls_differ() | wrong_escapes_differ();
    ExitCode::from(u8::from(apart || total.different > 0))
}
