//! Finds the port's static libraries and hands them to the linker, and notes the compiler for the report.

use std::path::{Path, PathBuf};
use std::process::Command;

/// The agent (include/xrce_agent.h) and the wire layer (include/xrce_wire.h).
const LIBRARIES: [&str; 2] = ["cabi", "cwire"];

fn main() {
    println!("cargo:rerun-if-env-changed=XRCE_AGENT_LIB");
    let folder = std::env::var_os("XRCE_AGENT_LIB").map_or_else(|| "../target/staticlib".into(), PathBuf::from);
    LIBRARIES.iter().for_each(|library| link(&folder, library));
    println!("cargo:rustc-env=BENCH_RUSTC={}", compiler());
}

fn link(folder: &Path, library: &str) {
    let archive = folder.join(format!("lib{library}.a"));
    println!("cargo:rerun-if-changed={}", archive.display());
    // The linker asks for an absolute folder: it isn't run from here.
    let Ok(found) = archive.canonicalize() else {
        eprintln!("no {}: `tools/archives {library}` makes it, or set XRCE_AGENT_LIB to its folder", archive.display());
        std::process::exit(1);
    };
    println!("cargo:rustc-link-search=native={}", found.parent().unwrap_or(folder).display());
    println!("cargo:rustc-link-lib=static={library}");
}

fn compiler() -> String {
    let rustc = std::env::var_os("RUSTC").unwrap_or_else(|| "rustc".into());
    let said = Command::new(rustc).arg("--version").output().map(|output| output.stdout).unwrap_or_default();
    String::from_utf8_lossy(&said).trim().to_string()
}
