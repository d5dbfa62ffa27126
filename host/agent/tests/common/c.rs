//! Compiles a C program against the header and the archive.

use std::path::{Path, PathBuf};
use std::process::Command;

pub fn root() -> PathBuf {
    Path::new(env!("CARGO_MANIFEST_DIR")).join("../..")
}

/// What the program prints; `None`, with a note, if there is no C compiler.
pub fn output(source: &Path, name: &str) -> Option<String> {
    if Command::new("cc").arg("--version").output().is_err() {
        println!("skipped: no C compiler (cc) is there");
        return None;
    }
    let program = Path::new(env!("CARGO_TARGET_TMPDIR")).join(name);
    let compiled = Command::new("cc")
        .args(["-std=c11", "-Wall", "-Wextra", "-Werror", "-I"])
        .arg(root().join("include"))
        .arg(source)
        .arg(Path::new(env!("XRCE_AGENT_FOLDER")).join("libcabi.a"))
        .arg("-o")
        .arg(&program)
        .output()
        .expect("cc runs");
    assert!(compiled.status.success(), "cc: {}", String::from_utf8_lossy(&compiled.stderr));
    let ran = Command::new(&program).output().expect("the program runs");
    assert!(ran.status.success(), "{name} ended with {}: {}", ran.status, String::from_utf8_lossy(&ran.stdout));
    Some(String::from_utf8(ran.stdout).expect("text"))
}
