//! The program `host`: the agent on a UDP port, with a bridge in memory or over DDS.

mod args;
mod bridges;
mod logging;
mod memory;
mod quota;
mod signals;
mod udp;
mod week;

use args::{parse, Parsed, HELP};
use std::process::ExitCode;

fn main() -> ExitCode {
    let words: Vec<String> = std::env::args().skip(1).collect();
    let options = match parse(&words) {
        Ok(Parsed::Run(options)) => options,
        Ok(Parsed::Help) => {
            print!("{HELP}");
            return ExitCode::SUCCESS;
        }
        Err(wrong) => {
            eprintln!("host: {wrong}\nhost --help says what it takes");
            return ExitCode::from(2);
        }
    };
    logging::set(options.log);
    match udp::run(&options) {
        Ok(()) => ExitCode::SUCCESS,
        Err(error) => {
            eprintln!("host: {error}");
            ExitCode::FAILURE
        }
    }
}
