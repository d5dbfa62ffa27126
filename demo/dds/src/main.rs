//! The demo `unplugged` on real DDS: the same clients against the original and against this port, each on a host of its own, and another
//! DDS process that sees what there is.
//!
//!     unplugged show HOST PEER    plays both sides and shows them; exit code 1 unless the port's reader is alive at the end
//!     unplugged original          the original as a host, on a free port

mod original;
mod programs;
mod steps;
mod table;

use programs::{Program, Watch};
use std::path::Path;
use std::process::ExitCode;
use steps::{Column, DOMAIN};

const HEAD: &str = "\
The same clients, two agents, real DDS (Cyclone, domain 60). Client 1's reader is the third entity that the agent
made. Client 2 has a Publisher, which it calls object 3; a Publisher has no entity in DDS.
";

const FOOT: &str = "\
The lines marked => are the point: the original takes the object's number for a handle, and its bridge, which counts
its entities from 1, deletes the DDS reader of client 1. The port hands out no handle that DDS didn't return to the
same client: the reader is the same one as before, and has what another DDS program writes.
";

fn main() -> ExitCode {
    let words: Vec<String> = std::env::args().skip(1).collect();
    let words: Vec<&str> = words.iter().map(String::as_str).collect();
    match words[..] {
        ["original"] => original::serve(),
        ["show", host, peer] => show(Path::new(host), Path::new(peer)),
        _ => ExitCode::from(2),
    }
}

fn show(host: &Path, peer: &Path) -> ExitCode {
    let itself = std::env::current_exe().expect("its own path");
    let domain = DOMAIN.to_string();
    let flags = ["udp", "--port", "0", "--bridge", "dds", "--domain-offset", &domain];
    let times = ["--timeout-ms", "1500", "--sweep-ms", "50", "--log", "error"];
    let first = play(&itself, &["original"], peer);
    let second = play(host, &[&flags[..], &times].concat(), peer);
    println!("{HEAD}\n{}\n{FOOT}", table::side_by_side(&first, &second));
    if second.is_reader_alive {
        return ExitCode::SUCCESS;
    }
    println!("NOT SHOWN: the port's reader isn't alive");
    ExitCode::FAILURE
}

fn play(host: &Path, words: &[&str], peer: &Path) -> Column {
    let watch = Watch::start(peer, DOMAIN);
    let (_host, address) = Program::host(host, words);
    steps::play(&address, &watch, peer)
}
