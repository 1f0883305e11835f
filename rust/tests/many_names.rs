//! A million names in flat memory. The test measures its process, so it has its own file.
use std::fs;

use twodfq::{KindId, Permits};

/// The memory that the process has, in kilobytes.
fn resident() -> u64 {
    let status = fs::read_to_string("/proc/self/status").unwrap();
    let row = status.lines().find_map(|line| line.strip_prefix("VmRSS:")).unwrap();
    row.trim().trim_end_matches(" kB").parse().unwrap()
}

fn visit(permits: &Permits, names: std::ops::Range<u32>) {
    for name in names {
        drop(permits.try_acquire(&format!("tenant {name}"), KindId::FIRST).unwrap());
    }
}

#[test]
fn a_million_names_take_no_more_memory_than_a_hundred_thousand() {
    let permits = Permits::builder().most_tenants(100).open_permits().unwrap();
    visit(&permits, 0..100_000); // until all that is kept has its memory
    let before = resident();
    visit(&permits, 100_000..1_000_000);
    let grown = resident().saturating_sub(before);
    assert!(grown < 1000, "{grown} kilobytes");
    let status = permits.status();
    assert_eq!((status.tenants.len(), status.others.done), (100, 1_000_000 - 100));
}
