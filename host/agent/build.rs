//! Finds the archive that holds the agent, and links it.

use std::env;
use std::path::{Path, PathBuf};
use std::process::exit;

/// The folder of the archive: XRCE_AGENT_LIB if it is set, else where the toolchain leaves it.
fn folder() -> PathBuf {
    let here = PathBuf::from(env::var_os("CARGO_MANIFEST_DIR").expect("cargo sets CARGO_MANIFEST_DIR"));
    match env::var_os("XRCE_AGENT_LIB") {
        Some(folder) if !folder.is_empty() => here.join(folder),
        _ => here.join("../../target/staticlib"),
    }
}

fn missing(archive: &Path) -> ! {
    eprintln!("The agent's archive isn't there: {}", archive.display());
    eprintln!("Run `tools/archives cabi` in the repository's root, which makes target/staticlib/libcabi.a,");
    eprintln!("or set XRCE_AGENT_LIB to the (absolute) folder that has libcabi.a.");
    exit(1)
}

fn main() {
    let folder = folder();
    let archive = folder.join("libcabi.a");
    println!("cargo:rerun-if-env-changed=XRCE_AGENT_LIB");
    println!("cargo:rerun-if-changed={}", archive.display());
    if !archive.is_file() {
        missing(&archive);
    }
    println!("cargo:rustc-link-search=native={}", folder.display());
    println!("cargo:rustc-link-lib=static=cabi");
    // The tests compile C against the same archive.
    println!("cargo:rustc-env=XRCE_AGENT_FOLDER={}", folder.display());
}
