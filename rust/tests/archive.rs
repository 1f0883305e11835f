//! A build without the archive.
use std::env;
use std::fs;
use std::path::Path;
use std::process::Command;

#[test]
fn cargo_names_what_makes_the_archive() {
    let empty = Path::new(env!("CARGO_TARGET_TMPDIR")).join("no_archive");
    fs::create_dir_all(&empty).unwrap();
    let mut cargo = Command::new(env::var_os("CARGO").unwrap());
    cargo.args(["build", "--offline", "--lib"]).current_dir(env!("CARGO_MANIFEST_DIR"));
    let built = cargo.env("TWODFQ_LIB", &empty).env("CARGO_TARGET_DIR", empty.join("target")).output().unwrap();
    let told = String::from_utf8_lossy(&built.stderr);
    assert!(!built.status.success() && told.contains("c/build"), "{told}");
}
