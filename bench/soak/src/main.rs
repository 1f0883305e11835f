//! Runs pools and permits under 32 submitting threads for a long time, and prints one line.
//!
//!     cargo run --release --offline [-- --seconds N]      # 600 seconds by default
//!
//! The threads submit to three services at once:
//!
//! - a pool of up to 64 workers, some of whose jobs panic, are cancelled or are late;
//! - permits, which are asked for in every way;
//! - a pool of four workers, where visitors come beside floods.
//!
//! In the first two weights and workers change, tenants come and go, and one scheduler follows another. The soak fails
//! unless each job ran once or was cancelled, late or refused; the counts of the status are those of the callers; each
//! journal is legal by `twodfq check`; the resident set has not grown since a fifth of the time; and no visitor waited
//! longer than `visitors::bound`. It runs itself anew with one heap of the C library's. `TWODFQ_LIB` names the folder of
//! the archive, and `TWODFQ_PROGRAM` the program.
mod changes;
mod churn;
mod judge;
mod memory;
mod names;
mod permits;
mod random;
mod soak;
mod tally;
mod visitors;

use std::env;
use std::error::Error;
use std::os::unix::process::CommandExt;
use std::panic;
use std::process::{self, Command};
use std::thread;
use std::time::Duration;

/// The reason why the soak failed.
pub type Fault = Box<dyn Error + Send + Sync>;

/// The message of jobs that panic on purpose.
pub const PANIC: &str = "a panic of the soak";

/// A request that waits longer than this is lost.
pub const LOST_AFTER: Duration = Duration::from_secs(60);

fn seconds() -> Result<u64, Fault> {
    let words: Vec<String> = env::args().skip(1).collect();
    match words.iter().map(String::as_str).collect::<Vec<_>>()[..] {
        [] => Ok(600),
        ["--seconds", number] => match number.parse() {
            Ok(seconds @ 1..=1_000_000) => Ok(seconds),
            _ => Err(format!("--seconds wants a number from 1 to 1000000, and not `{number}`").into()),
        },
        _ => Err("usage: soak [--seconds N]".into()),
    }
}

/// Keeps panics on purpose from being printed.
fn hush_own_panics() {
    let others = panic::take_hook();
    panic::set_hook(Box::new(move |info| {
        if info.payload().downcast_ref::<String>().is_none_or(|message| message != PANIC) {
            others(info);
        }
    }));
}

/// Ends the process if threads still wait long after this time.
fn watch(time: Duration) {
    thread::spawn(move || {
        thread::sleep(time + 2 * LOST_AFTER);
        eprintln!("soak: threads wait, and nothing wakes them");
        process::exit(1);
    });
}

/// Has the C library keep one heap. For a hundred threads it keeps many, each of which grows by its fragments; that
/// would hide whether the services' own memory is flat.
fn with_one_heap() -> Result<(), Fault> {
    const ARENAS: &str = "MALLOC_ARENA_MAX";
    if env::var_os(ARENAS).is_some() {
        return Ok(());
    }
    Err(Command::new(env::current_exe()?).args(env::args_os().skip(1)).env(ARENAS, "1").exec().into())
}

fn main() {
    hush_own_panics();
    let result = with_one_heap().and_then(|()| seconds()).and_then(|seconds| {
        let time = Duration::from_secs(seconds);
        watch(time);
        soak::run(time)
    });
    match result {
        Ok(line) => println!("{line}"),
        Err(fault) => {
            eprintln!("soak: {fault}");
            process::exit(1);
        }
    }
}
