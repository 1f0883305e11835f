//! Links the archive `libtwodfq.a` from the folder `TWODFQ_LIB`, or else from `c/out/lib`, where `c/build` leaves it.
//! If it is missing there and `rt` is on the path, `c/build` proves and builds it first.
use std::env;
use std::io;
use std::path::{Path, PathBuf};
use std::process::{self, Command};

const ARCHIVE: &str = "libtwodfq.a";

/// Where an archive comes from.
const HELP: &str = "\
The crate links the proved library for C. In a checkout of the repository run c/build --library, which proves and builds
it in some minutes and leaves it in c/out/lib. That needs `rt` of the toolchain `rattle-kit-13f` on the path, and a C
compiler. Cargo runs that command where `rt` is on the path, unless TWODFQ_PROVE is 0. TWODFQ_LIB names another folder
that has the archive.";

fn main() {
    println!("cargo:rerun-if-changed=build.rs");
    println!("cargo:rerun-if-env-changed=TWODFQ_LIB");
    println!("cargo:rerun-if-env-changed=TWODFQ_PROVE");
    match folder() {
        Ok(folder) => {
            println!("cargo:rerun-if-changed={}", folder.join(ARCHIVE).display());
            println!("cargo:rustc-link-search=native={}", folder.display());
            println!("cargo:rustc-link-lib=static=twodfq");
        }
        Err(fault) => {
            eprintln!("twodfq: {fault}\n{HELP}");
            process::exit(1);
        }
    }
}

/// The folder that has the archive.
fn folder() -> Result<PathBuf, String> {
    check_target()?;
    let package = PathBuf::from(env::var_os("CARGO_MANIFEST_DIR").expect("cargo names the package's folder"));
    if let Some(named) = env::var_os("TWODFQ_LIB") {
        return with_archive(package.join(named));
    }
    let c = package.join("../c");
    let made = c.join("out/lib");
    if !made.join(ARCHIVE).exists() && may_prove(&c.join("build")) {
        prove_and_build(&c.join("build"))?;
    }
    with_archive(made)
}

/// The toolchain makes the archive for one target alone.
fn check_target() -> Result<(), String> {
    let named = |name| env::var(name).expect("cargo names the target's properties");
    let (system, processor) = (named("CARGO_CFG_TARGET_OS"), named("CARGO_CFG_TARGET_ARCH"));
    if (system.as_str(), processor.as_str()) == ("linux", "x86_64") {
        return Ok(());
    }
    Err(format!("the library is made for Linux on x86_64, and the target is {system} on {processor}"))
}

fn with_archive(folder: PathBuf) -> Result<PathBuf, String> {
    let archive = folder.join(ARCHIVE);
    if archive.exists() {
        Ok(folder)
    } else {
        Err(format!("there is no {}", archive.display()))
    }
}

/// A proof keeps all processors busy for minutes, and editors run build scripts too: `TWODFQ_PROVE=0` prevents it.
fn may_prove(build: &Path) -> bool {
    let is_allowed = env::var_os("TWODFQ_PROVE").is_none_or(|word| word != "0");
    let paths = env::var_os("PATH").unwrap_or_default();
    is_allowed && build.exists() && env::split_paths(&paths).any(|folder| folder.join("rt").is_file())
}

/// The output of `c/build` goes to standard error: cargo shows that where it fails, and reads standard output itself.
fn prove_and_build(build: &Path) -> Result<(), String> {
    let status = Command::new(build).arg("--library").stdout(io::stderr()).status();
    match status {
        Ok(status) if status.success() => Ok(()),
        Ok(status) => Err(format!("c/build --library: {status}")),
        Err(fault) => Err(format!("c/build --library: {fault}")),
    }
}
