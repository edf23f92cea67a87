//! Calls with a pattern in and behind their buffers: what each reports and leaves, cell by cell and
//! byte by byte, held to what it should.
use std::borrow::Cow;
use std::collections::BTreeMap;

use crate::asking;
use crate::tally::Differences;
use crate::texts::CLOSED;
use crate::writing::{self, Report};

/// Cells and bytes behind what is lent.
const BEHIND: usize = 16;

/// What every call is about.
#[derive(Clone, Copy, Debug)]
pub struct Call<'a> {
    pub symbol: &'a [u8],
    pub flags: u32,
    pub depth: u32,
}

/// What a call should report, and put at the beginning of table and text; the rest stays.
pub struct Outcome<'a> {
    pub report: Report,
    pub cells: Cow<'a, [u32]>,
    pub text: Cow<'a, [u8]>,
}

impl Outcome<'_> {
    /// A report of a call that changes nothing.
    pub fn unchanged(report: Report) -> Outcome<'static> {
        Outcome { report, cells: Cow::default(), text: Cow::default() }
    }
}

/// Old cells, none of them 0: such as no node has, or every other time such as a node might have.
fn old_cells(count: usize, time: usize) -> Vec<u32> {
    let old = |place: u32| match time % 2 {
        0 => 0xF000_0000 | place.wrapping_mul(0x9E37_79B1) >> 4,
        _ => 1 + place % 60,
    };
    (0..count as u32).map(old).collect()
}

/// Old bytes: such as no text has, or every other time letters.
fn old_bytes(count: usize, time: usize) -> Vec<u8> {
    let old = |place: usize| match time % 2 {
        0 => 0x80 | (place.wrapping_mul(37) & 0x7F) as u8,
        _ => b'a' + (place % 26) as u8,
    };
    (0..count).map(old).collect()
}

/// What was there, with this at its beginning.
fn over<T: Copy>(old: &[T], beginning: &[T]) -> Vec<T> {
    [beginning, &old[beginning.len()..]].concat()
}

/// How many calls have reported each number.
type Numbers = [usize; 9];

/// All calls of the comparison.
#[derive(Default)]
pub struct Trials {
    made: usize,
    apart: usize,
    kinds: BTreeMap<String, Numbers>,
    different: Differences,
}

fn print_numbers(kind: &str, numbers: &Numbers) {
    let came = numbers.iter().enumerate().filter(|(_, calls)| **calls > 0);
    let came: Vec<_> = came.map(|(number, calls)| format!("{calls} with {number}")).collect();
    println!("calls, {kind}: {}", came.join(", "));
}

impl Trials {
    pub fn differ(&mut self, symbol: &[u8], difference: String) {
        self.different.add(symbol.to_vec(), difference);
    }

    /// Counts a text that is the crate's own, or only its copy's.
    pub fn add_text(&mut self, own: bool) {
        self.apart += usize::from(!own);
    }

    /// Counts a call. One that reports a number that is none is a difference anyway.
    fn settle(&mut self, kind: &str, number: u64) {
        self.made += 1;
        if !self.kinds.contains_key(kind) {
            self.kinds.insert(kind.to_string(), Numbers::default());
        }
        let numbers = self.kinds.get_mut(kind).expect("the kind is there");
        numbers.get_mut(number as usize).into_iter().for_each(|calls| *calls += 1);
    }

    /// Reads and writes, into so many cells and bytes.
    pub fn read(
        &mut self,
        kind: &str,
        call: Call,
        (cells, room): (usize, usize),
        should: &Outcome,
    ) {
        let mut table = old_cells(cells + BEHIND, self.made);
        let mut text = old_bytes(room + BEHIND, self.made);
        let left = (over(&table, &should.cells), over(&text, &should.text));
        let Call { symbol, flags, depth } = call;
        let report = writing::read(symbol, flags, depth, &mut table[..cells], &mut text[..room]);
        self.settle(kind, report.number);
        let same = [report == should.report, table == left.0, text == left.1];
        if same != [true; 3] {
            let lent = format!("flags {flags:#x}, depth {depth}, {cells} cells, room {room}");
            let what = format!("{report:?}, not {:?}", should.report);
            self.differ(symbol, format!("{kind}: {lent}: {what}; [report, table, text] {same:?}"));
        }
    }

    /// Writes this table alone.
    pub fn write(&mut self, kind: &str, call: Call, lent: (&[u32], usize), should: &Outcome) {
        let (nodes, room) = lent;
        let table = over(&old_cells(nodes.len() + BEHIND, self.made), nodes);
        let table_left = table.clone();
        let mut text = old_bytes(room + BEHIND, self.made);
        let text_left = over(&text, &should.text);
        let Call { symbol, flags, depth } = call;
        let report = asking::write(symbol, flags, depth, &table[..nodes.len()], &mut text[..room]);
        self.settle(kind, report.number);
        let same = [report == should.report, table == table_left, text == text_left];
        if same != [true; 3] {
            let lent = format!("flags {flags:#x}, depth {depth}, room {room}, {nodes:?}");
            let what = format!("{report:?}, not {:?}", should.report);
            self.differ(symbol, format!("{kind}: {what}; [report, table, text] {same:?}: {lent}"));
        }
    }

    /// Asks for a node's name.
    pub fn name(
        &mut self,
        kind: &str,
        symbol: &[u8],
        (nodes, node): (&[u32], u64),
        should: Report,
    ) {
        let table = over(&old_cells(nodes.len() + BEHIND, self.made), nodes);
        let left = table.clone();
        let report = asking::name(symbol, &table[..nodes.len()], node);
        self.settle(kind, report.number);
        if report != should || table != left {
            let what = format!("{report:?}, not {should:?}, node {node} of {nodes:?}");
            self.differ(symbol, format!("{kind}: {what}"));
        }
    }

    /// Whether there is a difference.
    pub fn print(&mut self) -> bool {
        let mut all = Numbers::default();
        for (kind, numbers) in &self.kinds {
            print_numbers(kind, numbers);
            all.iter_mut().zip(numbers).for_each(|(sum, calls)| *sum += calls);
        }
        print_numbers(&format!("all {}", self.made), &all);
        println!("calls: {} texts of symbols and tables have a {CLOSED}", self.apart);
        self.different.print("calls")
    }
}
