//! Builds the shim, where Cyclone DDS is installed, and links it. Where it isn't, the crate is built without: `BUILT` says so.

use std::env;
use std::path::{Path, PathBuf};
use std::process::{Command, Stdio};

const SHIM: &str = "shim.c";
/// Where Debian's package puts it. If it isn't there, cargo looks again with each build.
const HEADER: &str = "/usr/include/dds/dds.h";

fn compiler() -> Command {
    Command::new(env::var_os("CC").unwrap_or_else(|| "cc".into()))
}

// Whether a program that has Cyclone's header and library compiles and links.
fn is_there(folder: &Path) -> bool {
    let program = folder.join("there.c");
    std::fs::write(&program, "#include <dds/dds.h>\nint main(void) { return dds_strretcode(0) == 0; }\n")
        .expect("written");
    let mut cc = compiler();
    cc.arg(&program).arg("-o").arg(folder.join("there")).arg("-lddsc");
    cc.stdout(Stdio::null()).stderr(Stdio::null()).status().is_ok_and(|status| status.success())
}

fn run(command: &mut Command) {
    let status = command.status().unwrap_or_else(|error| panic!("{command:?}: {error}"));
    assert!(status.success(), "{command:?}: {status}");
}

fn main() {
    for changed in [SHIM, HEADER] {
        println!("cargo:rerun-if-changed={changed}");
    }
    println!("cargo:rerun-if-env-changed=CC");
    println!("cargo:rustc-check-cfg=cfg(cyclone)");
    let folder = PathBuf::from(env::var_os("OUT_DIR").expect("cargo sets OUT_DIR"));
    if !is_there(&folder) {
        return;
    }
    let (object, archive) = (folder.join("shim.o"), folder.join("libxrcedds.a"));
    run(compiler().args(["-std=c11", "-O2", "-fPIC", "-Wall", "-Wextra", "-c", SHIM, "-o"]).arg(&object));
    // An older archive would be added to.
    let _ = std::fs::remove_file(&archive);
    run(Command::new("ar").arg("crs").arg(&archive).arg(&object));
    println!("cargo:rustc-link-search=native={}", folder.display());
    println!("cargo:rustc-link-lib=static=xrcedds");
    println!("cargo:rustc-link-lib=ddsc");
    println!("cargo:rustc-cfg=cyclone");
}
