//! A comparison's own thread, with a stack for the crate's recursion, and the crate's panics on it.
use std::process::ExitCode;
use std::sync::Mutex;
use std::{io, panic, thread};

/// The crate and the model recur as deep as a symbol is long.
const STACK_BYTES: usize = 512 << 20;

static LAST_TRAP: Mutex<String> = Mutex::new(String::new());

/// Keeps the message of a panic of the crate, in place of printing it.
fn keep_traps() {
    panic::set_hook(Box::new(|information| {
        let message = information.payload().downcast_ref::<&str>().map(ToString::to_string);
        *LAST_TRAP.lock().expect("no thread panics with the lock") =
            message.unwrap_or_else(|| information.to_string());
    }));
}

fn last_trap() -> String {
    LAST_TRAP.lock().expect("no thread panics with the lock").clone()
}

/// What the crate with its checks gives, or the name of the trap.
pub fn caught<T>(call: impl FnOnce() -> T + panic::UnwindSafe) -> Result<T, String> {
    panic::catch_unwind(call).map_err(|_| last_trap())
}

/// Runs a comparison, which says whether there is a difference. The exit status is 1 if there is,
/// or if the comparison itself panics.
pub fn run(
    name: &str,
    differs: impl FnOnce() -> io::Result<bool> + Send + 'static,
) -> io::Result<ExitCode> {
    keep_traps();
    let comparison = thread::Builder::new().stack_size(STACK_BYTES);
    let failed = match comparison.spawn(differs)?.join() {
        Ok(failed) => failed?,
        Err(_) => {
            eprintln!("{name}: {}", last_trap());
            true
        }
    };
    Ok(ExitCode::from(u8::from(failed)))
}
