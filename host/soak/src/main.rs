//! The program `soak`: a flood on a running host, and the C functions over altered records and tables. Exit code 0 only
//! if all held.

mod alter;
mod chance;
mod crowd;
mod datagrams;
mod flood;
mod hours;
mod listing;
mod repeats;
mod stores;
mod sys;
mod witness;

use flood::Bridge;
use std::process::ExitCode;

const HELP: &str = "\
soak [--seed N] [--host PROGRAM]   with PROGRAM, floods a host that it starts itself, on 127.0.0.1; then calls the C
                                   functions over altered records and tables. Exit code 0 only if all held.
soak .. --bridge dds               only floods, and the host has its bridge over DDS
soak --trip start|end              writes outside of a guarded store, and must end by SIGSEGV
";

fn told(what: &str, held: Result<String, String>) -> bool {
    match held {
        Ok(text) => println!("{what}: {text}"),
        Err(text) => {
            println!("{what}: NOT HELD: {text}");
            return false;
        }
    }
    true
}

struct Options {
    seed: u64,
    host: Option<String>,
    bridge: Bridge,
}

fn parse(words: &[String]) -> Option<Options> {
    let mut options = Options { seed: 1, host: None, bridge: Bridge::Memory };
    for pair in words.chunks(2) {
        match pair {
            [flag, value] if flag == "--seed" => options.seed = value.parse().ok()?,
            [flag, value] if flag == "--host" => options.host = Some(value.clone()),
            [flag, value] if flag == "--bridge" && value == "dds" => options.bridge = Bridge::Dds,
            _ => return None,
        }
    }
    Some(options)
}

fn main() -> ExitCode {
    let words: Vec<String> = std::env::args().skip(1).collect();
    match words.iter().map(String::as_str).collect::<Vec<_>>()[..] {
        ["--trip", "start"] => sys::trip(sys::Side::Start),
        ["--trip", "end"] => sys::trip(sys::Side::End),
        _ => {}
    }
    let Some(Options { seed, host, bridge }) = parse(&words) else {
        eprint!("{HELP}");
        return ExitCode::from(2);
    };
    println!("seed {seed}");
    let flooded = host.is_none_or(|host| told("flood", flood::run(seed, &host, bridge)));
    let altered = bridge == Bridge::Dds || told("alteration", alter::run(seed));
    if flooded && altered {
        return ExitCode::SUCCESS;
    }
    ExitCode::FAILURE
}
