//! Journals that a test reads, and that the proved program judges.
use std::env;
use std::io::{self, Write};
use std::process::{Command, Stdio};
use std::sync::{Arc, Mutex};

/// A writer whose text others may read.
#[derive(Clone, Default)]
pub struct Text(Arc<Mutex<Vec<u8>>>);

impl Write for Text {
    fn write(&mut self, bytes: &[u8]) -> io::Result<usize> {
        self.0.lock().unwrap().write(bytes)
    }

    fn flush(&mut self) -> io::Result<()> {
        Ok(())
    }
}

impl Text {
    /// The journals, each with its head.
    pub fn journals(&self) -> Vec<String> {
        let text = String::from_utf8(self.0.lock().unwrap().clone()).unwrap();
        text.split("journal 3\n").skip(1).map(|rest| format!("journal 3\n{rest}")).collect()
    }
}

/// The verdict and the message of the proved program on a journal, where `TWODFQ_PROGRAM` names the program.
pub fn check(journal: &str) -> Option<[String; 2]> {
    let mut command = Command::new(env::var_os("TWODFQ_PROGRAM")?);
    let command = command.arg("check").stdin(Stdio::piped()).stdout(Stdio::piped()).stderr(Stdio::piped());
    let mut child = command.spawn().unwrap();
    child.stdin.take().unwrap().write_all(journal.as_bytes()).unwrap();
    let output = child.wait_with_output().unwrap();
    Some([output.stdout, output.stderr].map(|text| String::from_utf8(text).unwrap()))
}

/// The journal is legal to its last entry, where the program judges it.
#[allow(dead_code, reason = "not all tests have legal journals alone")]
pub fn judge(journal: &str) {
    let Some([verdict, _]) = check(journal) else { return };
    let is_head = |line: &&str| ["journal ", "config ", "tenant ", "kind "].iter().any(|word| line.starts_with(word));
    let entries = journal.lines().count() - journal.lines().filter(is_head).count();
    assert_eq!(verdict, format!("legal entries {entries}\n"));
}
