//! The stored list of the program `undname`: symbols, one a line, and what it should print for them.
//!
//! usage: list CORPORA OUT    makes the list, OUT/stdin and OUT/stdout
//!        list FOLDER         holds FOLDER/stdout to the crate's answers to FOLDER/stdin
//!
//! The list has the scope's own symbols and its example, each production, each letter at each place
//! where one decides, the bounds of depth, nodes, room, length and bytes, real symbols of CORPORA
//! and symbols made from the grammar, half of them damaged. The crate with its checks decides; where
//! it traps, the crate without them; the plain model gives the refusals that the crate does not know,
//! and the offsets of bad numbers; the crate's mended copy gives the texts.
mod answers;
#[path = "list/bounds.rs"]
mod bounds;
mod damage;
#[path = "list/document.rs"]
mod document;
mod fault;
mod generate;
#[path = "list/letters.rs"]
mod letters;
#[allow(dead_code)] // no table is lent here
mod limits;
mod model;
#[path = "list/printed.rs"]
mod printed;
mod random;
mod refusals;
mod sources;
mod tally;
mod texts;
mod towers;
mod traps;

use std::collections::HashSet;
use std::path::Path;
use std::process::ExitCode;
use std::{env, fs, io};

use printed::Printed;
use tally::{Differences, Reasons};

/// Symbols of the corpora and from the grammar, and how long they may be.
const REAL: usize = 330;
const LONGEST_REAL: usize = 500;
const GENERATED: usize = 400;
const LONGEST_GENERATED: usize = 160;
/// The last line of the list, which no newline ends.
const LAST: &[u8] = b"?last@@3HA";

/// So many out of these, spread evenly.
fn spread(symbols: Vec<Vec<u8>>, count: usize) -> impl Iterator<Item = Vec<u8>> {
    let step = (symbols.len() / count).max(1);
    symbols.into_iter().step_by(step)
}

fn candidates(corpora: &Path) -> io::Result<Vec<Vec<u8>>> {
    let mut symbols: Vec<_> = document::EXAMPLE.iter().map(|line| line.to_vec()).collect();
    symbols.extend(document::symbols());
    symbols.extend(bounds::symbols());
    symbols.extend(letters::symbols());
    let mut real = sources::listed(corpora)?;
    real.retain(|symbol| symbol.len() <= LONGEST_REAL);
    symbols.extend(spread(real, REAL));
    let generated = sources::generated(10 * GENERATED);
    let short = generated.filter(|symbol| symbol.len() <= LONGEST_GENERATED);
    symbols.extend(short.filter(|symbol| !symbol.contains(&b'\n')).take(GENERATED));
    symbols.push(LAST.to_vec());
    Ok(symbols)
}

/// What became of the lines.
#[derive(Default)]
struct Tally {
    lines: usize,
    answers: Reasons,
    notes: Reasons,
    left_out: Reasons,
    different: Differences,
}

impl Tally {
    fn add(&mut self, printed: &Printed) {
        self.lines += 1;
        match printed.line.split('\t').collect::<Vec<_>>()[..] {
            ["no", number, _] => self.answers.add(format!("refused with {number}")),
            _ => self.answers.add("answered"),
        }
        printed.note.iter().for_each(|note| self.notes.add(note));
    }

    /// Whether there is a difference.
    fn print(&mut self) -> bool {
        self.answers.print(&format!("list, {} lines", self.lines));
        self.notes.print("list: lines on which the crate's checks trap, or it has another rule");
        self.left_out.print("list: left out");
        self.different.print("list")
    }
}

/// Makes the list. A symbol that the crate does not decide is left out, with its reason.
fn make(corpora: &Path, out: &Path) -> io::Result<bool> {
    let (mut lines, mut answers, mut tally) = (Vec::new(), String::new(), Tally::default());
    let mut seen = HashSet::new();
    for line in candidates(corpora)?.into_iter().filter(|line| seen.insert(line.clone())) {
        match printed::printed(&line) {
            Ok(printed) => {
                tally.add(&printed);
                answers += &format!("{}\n", printed.line);
                lines.push(line);
            }
            Err(reason) => tally.left_out.add(reason),
        }
    }
    fs::create_dir_all(out)?;
    fs::write(out.join("stdin"), lines.join(&b'\n'))?;
    fs::write(out.join("stdout"), answers)?;
    Ok(tally.print())
}

/// Whether the stored output differs from what the program should print.
fn differs(program: &Path) -> io::Result<bool> {
    let (lines, stored) = (fs::read(program.join("stdin"))?, fs::read(program.join("stdout"))?);
    let mut answers = stored.split(|byte| *byte == b'\n');
    let mut tally = Tally::default();
    for line in lines.split(|byte| *byte == b'\n') {
        let stored = answers.next().unwrap_or_default();
        match printed::printed(line) {
            Ok(printed) if printed.line.as_bytes() == stored => tally.add(&printed),
            other => {
                let (stored, other) = (stored.escape_ascii(), other.map(|printed| printed.line));
                tally.different.add(line.into(), format!("`{stored}` is stored, not {other:?}"));
            }
        }
    }
    if answers.next() != Some(b"") || answers.next().is_some() {
        tally.different.add(LAST.into(), "the stored output has not as many lines".to_string());
    }
    Ok(tally.print())
}

fn main() -> io::Result<ExitCode> {
    let words: Vec<String> = env::args().skip(1).collect();
    match &words[..] {
        [folder] => {
            let folder = folder.clone();
            traps::run("list", move || differs(Path::new(&folder)))
        }
        [corpora, out] => {
            let (corpora, out) = (corpora.clone(), out.clone());
            traps::run("list", move || make(Path::new(&corpora), Path::new(&out)))
        }
        _ => {
            eprintln!("usage: list CORPORA OUT, or list FOLDER");
            Ok(ExitCode::from(2))
        }
    }
}
