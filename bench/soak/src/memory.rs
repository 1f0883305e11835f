//! The memory of the process.
use std::fs;

use crate::Fault;

/// The resident set in kilobytes.
pub fn resident() -> Result<u64, Fault> {
    let status = fs::read_to_string("/proc/self/status")?;
    let line = status.lines().find_map(|line| line.strip_prefix("VmRSS:"));
    let number = line.and_then(|line| line.trim().strip_suffix(" kB"));
    Ok(number.ok_or("/proc/self/status has no VmRSS in kB")?.parse()?)
}
