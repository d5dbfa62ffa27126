//! Finds the archive of the wire library and hands it to the linker.

use std::path::PathBuf;

fn main() {
    println!("cargo:rerun-if-env-changed=XRCE_AGENT_LIB");
    let folder = std::env::var_os("XRCE_AGENT_LIB").map_or_else(|| "../../target/staticlib".into(), PathBuf::from);
    let archive = folder.join("libcwire.a");
    println!("cargo:rerun-if-changed={}", archive.display());
    // The linker asks for an absolute folder: it isn't run from here.
    let Ok(found) = archive.canonicalize() else {
        eprintln!("no {}: `tools/archives cwire` makes it, or set XRCE_AGENT_LIB to its folder", archive.display());
        std::process::exit(1);
    };
    println!("cargo:rustc-link-search=native={}", found.parent().unwrap_or(&folder).display());
    println!("cargo:rustc-link-lib=static=cwire");
}
