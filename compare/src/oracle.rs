//! Answers of the crate for symbols on standard input, one a line, an answer line for each:
//!
//!   ok<TAB>text          the crate's text under the flag word
//!   no<TAB>3<TAB>offset  refused there
//!   trap                 the crate panics
//!   utf8                 the line is not UTF-8, so that the crate cannot take it
//!   heavy                (--guard) the symbol exhausts memory, stack or time
//!
//! usage: oracle [FLAGS] [--guard SECONDS]
//!
//! FLAGS is decimal or 0x and hexadecimal, 0 if not given. With --guard a child process does the
//! work, with MEMORY_KIB of memory and SECONDS for each symbol.
use std::io::{self, BufRead, BufReader, Write};
use std::panic;
use std::process::{Child, ChildStdin, Command, Stdio};
use std::sync::mpsc::{self, Receiver};
use std::thread;
use std::time::Duration;

use msvc_demangler::DemangleFlags;

const MEMORY_KIB: u32 = 2 << 20;
const STACK_BYTES: usize = 512 << 20;

struct Options {
    flags: u32,
    guard: Option<Duration>,
}

fn answer(line: &[u8], flags: u32) -> String {
    let Ok(symbol) = std::str::from_utf8(line) else {
        return "utf8".to_string();
    };
    let demangled = panic::catch_unwind(|| {
        msvc_demangler::demangle(symbol, DemangleFlags::from_bits_retain(flags))
    });
    match demangled {
        Ok(Ok(text)) => format!("ok\t{text}"),
        Ok(Err(error)) => {
            format!("no\t3\t{}", error.offset().expect("parse errors have an offset"))
        }
        Err(_) => "trap".to_string(),
    }
}

/// Calls `step` with each line of standard input, without its line feed, and prints what it gives.
fn for_each_line(mut step: impl FnMut(&[u8]) -> io::Result<String>) -> io::Result<()> {
    let mut output = io::stdout().lock();
    for line in io::stdin().lock().split(b'\n') {
        writeln!(output, "{}", step(&line?)?)?;
        // A guarding parent waits for this answer before it sends the next symbol.
        output.flush()?;
    }
    Ok(())
}

/// The child process that does the work under `--guard`, and the answers it has given.
struct Worker {
    process: Child,
    symbols: ChildStdin,
    answers: Receiver<String>,
}

impl Worker {
    fn start(flags: u32) -> io::Result<Worker> {
        let limited = format!("ulimit -c 0; ulimit -v {MEMORY_KIB}; exec \"$0\" \"$@\"");
        let mut process = Command::new("sh")
            .args(["-c", &limited])
            .arg(std::env::current_exe()?)
            .arg(flags.to_string())
            .stdin(Stdio::piped())
            .stdout(Stdio::piped())
            .stderr(Stdio::null())
            .spawn()?;
        let symbols = process.stdin.take().expect("stdin is piped");
        let output = BufReader::new(process.stdout.take().expect("stdout is piped"));
        let mut lines = output.split(b'\n').map_while(|line| String::from_utf8(line.ok()?).ok());
        let (sender, answers) = mpsc::channel();
        // Ends with the child's output, or when nobody waits for answers any more.
        thread::spawn(move || lines.try_for_each(|line| sender.send(line)));
        Ok(Worker { process, symbols, answers })
    }

    /// `None` if the child ends or the time passes before there is an answer.
    fn answer(&mut self, line: &[u8], limit: Duration) -> Option<String> {
        self.symbols.write_all(&[line, b"\n"].concat()).ok()?;
        self.answers.recv_timeout(limit).ok()
    }

    fn stop(mut self) -> io::Result<()> {
        self.process.kill()?;
        self.process.wait().map(drop)
    }
}

fn guarded(flags: u32, limit: Duration) -> io::Result<()> {
    let mut worker = Worker::start(flags)?;
    for_each_line(|line| match worker.answer(line, limit) {
        Some(answer) => Ok(answer),
        None => {
            std::mem::replace(&mut worker, Worker::start(flags)?).stop()?;
            Ok("heavy".to_string())
        }
    })?;
    worker.stop()
}

fn unguarded(flags: u32) -> io::Result<()> {
    panic::set_hook(Box::new(|_| {}));
    let work = move || for_each_line(|line| Ok(answer(line, flags)));
    let worker = thread::Builder::new().stack_size(STACK_BYTES).spawn(work)?;
    worker.join().expect("panics of the crate are caught")
}

fn flag_word(word: &str) -> Option<u32> {
    match word.strip_prefix("0x") {
        Some(digits) => u32::from_str_radix(digits, 16).ok(),
        None => word.parse().ok(),
    }
}

fn options(mut words: impl Iterator<Item = String>) -> Option<Options> {
    let mut options = Options { flags: 0, guard: None };
    while let Some(word) = words.next() {
        if word == "--guard" {
            options.guard = Some(Duration::from_secs(words.next()?.parse().ok()?));
        } else {
            options.flags = flag_word(&word)?;
        }
    }
    Some(options)
}

fn main() -> io::Result<()> {
    let Some(options) = options(std::env::args().skip(1)) else {
        eprintln!("usage: oracle [FLAGS] [--guard SECONDS]");
        std::process::exit(2);
    };
    match options.guard {
        Some(limit) => guarded(options.flags, limit),
        None => unguarded(options.flags),
    }
}
