//! Journals, judged by `twodfq check` as they are written.
use std::env;
use std::ffi::OsString;
use std::io::{self, BufWriter, Write};
use std::path::Path;
use std::process::{Child, ChildStdin, Command, Stdio};
use std::str;
use std::sync::{Arc, Mutex, MutexGuard, PoisonError};

use crate::Fault;

/// The program that judges: that of `TWODFQ_PROGRAM`, or else that built by `./twodfq`.
pub fn program() -> Result<OsString, Fault> {
    let built = Path::new(env!("CARGO_MANIFEST_DIR")).join("../../crates/twodfq/out/twodfq");
    let program = env::var_os("TWODFQ_PROGRAM").unwrap_or_else(|| built.into());
    if Path::new(&program).exists() {
        return Ok(program);
    }
    let program = Path::new(&program).display();
    Err(format!("there is no {program}: ./twodfq builds it, and TWODFQ_PROGRAM names another").into())
}

/// The verdicts on all journals.
#[derive(Clone, Copy, Debug, Default)]
pub struct Verdicts {
    /// The number of legal journals.
    pub legal: u64,
    /// The greatest cost in them, in microseconds.
    pub greatest_cost: u64,
}

/// A writer of journals, one after another, in whole lines. A clone is the same writer.
#[derive(Clone)]
pub struct Judge(Arc<Mutex<Trial>>);

impl Judge {
    pub fn new(program: OsString) -> Judge {
        Judge(Arc::new(Mutex::new(Trial { program, current: None, verdicts: Verdicts::default() })))
    }

    fn trial(&self) -> MutexGuard<'_, Trial> {
        self.0.lock().unwrap_or_else(PoisonError::into_inner)
    }

    /// Ends the last journal, and returns all verdicts. An illegal journal is an error, here or of a write.
    pub fn verdicts(&self) -> io::Result<Verdicts> {
        let mut trial = self.trial();
        trial.end()?;
        Ok(trial.verdicts)
    }
}

impl Write for Judge {
    fn write(&mut self, bytes: &[u8]) -> io::Result<usize> {
        let text = str::from_utf8(bytes).map_err(io::Error::other)?;
        let mut trial = self.trial();
        text.split_inclusive('\n').try_for_each(|line| trial.line(line))?;
        Ok(bytes.len())
    }

    fn flush(&mut self) -> io::Result<()> {
        Ok(()) // the program answers at the end alone
    }
}

struct Trial {
    program: OsString,
    current: Option<Current>,
    verdicts: Verdicts,
}

/// The journal that is being written.
struct Current {
    child: Child,
    input: BufWriter<ChildStdin>,
    entries: u64,
}

impl Trial {
    fn line(&mut self, line: &str) -> io::Result<()> {
        let word = line.split(' ').next().unwrap_or_default();
        if word == "journal" {
            self.end()?;
            self.current = Some(Current::begin(&self.program)?);
        }
        if word == "done" {
            let cost = line.trim_end().rsplit(' ').next().and_then(|cost| cost.parse().ok());
            let cost = cost.ok_or_else(|| io::Error::other(format!("no cost: {line}")))?;
            self.verdicts.greatest_cost = self.verdicts.greatest_cost.max(cost);
        }
        let current = self.current.as_mut().ok_or_else(|| io::Error::other("lines above the first journal"))?;
        current.entries += u64::from(!["journal", "config", "tenant", "kind"].contains(&word));
        current.input.write_all(line.as_bytes())
    }

    /// Ends the journal that is being written, where there is one, and reads the verdict.
    fn end(&mut self) -> io::Result<()> {
        let Some(Current { child, input, entries }) = self.current.take() else { return Ok(()) };
        drop(input.into_inner()?); // closed, the program answers
        let verdict = child.wait_with_output()?.stdout;
        if verdict != format!("legal entries {entries}\n").as_bytes() {
            let verdict = String::from_utf8_lossy(&verdict).into_owned();
            return Err(io::Error::other(format!("a journal of {entries} entries is not legal: {verdict}")));
        }
        self.verdicts.legal += 1;
        Ok(())
    }
}

impl Current {
    fn begin(program: &OsString) -> io::Result<Current> {
        let mut child = Command::new(program).arg("check").stdin(Stdio::piped()).stdout(Stdio::piped()).spawn()?;
        let input = child.stdin.take().map(BufWriter::new).ok_or_else(|| io::Error::other("no pipe to the program"))?;
        Ok(Current { child, input, entries: 0 })
    }
}
