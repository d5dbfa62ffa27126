//! The original as judge: answers commands and replay scripts, makes them, and holds the port's answers to its own.

mod chance;
mod clock;
mod datagrams;
mod hours;
mod judge;
mod layers;
mod listing;
mod make_agent;
mod make_hours;
mod make_layers;
mod refusals;
mod replay;
mod texts;
mod words;

use std::io::{BufWriter, Read, Write};

const USAGE: &str = "oracle layers | replay                     answers the commands or the script on standard input
oracle make layers | replay SEED COUNT     writes commands or scripts
oracle judge layers | replay COMMANDS ORIGINAL PORT   shows the first difference
oracle sample COMMANDS ORIGINAL PORT EVERY STDIN STDOUT   writes a fixed list, one command in EVERY";

fn standard_input() -> String {
    let mut text = String::new();
    std::io::stdin().read_to_string(&mut text).expect("standard input is text");
    text
}

fn file(path: &str) -> String {
    std::fs::read_to_string(path).expect("a file of lines")
}

fn print(lines: impl IntoIterator<Item = String>) {
    let mut out = BufWriter::new(std::io::stdout().lock());
    for line in lines {
        writeln!(out, "{line}").expect("standard output takes the lines");
    }
}

fn main() {
    let args: Vec<String> = std::env::args().skip(1).collect();
    let args: Vec<&str> = args.iter().map(String::as_str).collect();
    match *args {
        ["layers"] => {
            let mut layers = layers::Layers::new();
            print(standard_input().lines().flat_map(|line| layers.answer(line)));
        }
        ["replay"] => {
            let script = standard_input();
            print(replay::Replay::new().run(&script.lines().collect::<Vec<_>>()));
        }
        ["make", what, seed, count] => {
            let seed = words::number(seed).expect("SEED is a number");
            let count = words::number(count).expect("COUNT is a number");
            match what {
                "layers" => print(make_layers::commands(seed, count)),
                "replay" => print(make_agent::scripts(seed, count)),
                _ => usage(),
            }
        }
        ["judge", what, commands, original, port] => {
            let (commands, original, port) = (file(commands), file(original), file(port));
            let verdict = match what {
                "layers" => judge::layers(&commands, &original, &port),
                "replay" => judge::replay(&commands, &original, &port),
                _ => usage(),
            };
            match verdict {
                Ok(summary) => println!("{summary}"),
                Err(difference) => {
                    println!("{difference}");
                    std::process::exit(1);
                }
            }
        }
        ["sample", commands, original, port, every, stdin, stdout] => {
            let every = words::number(every).expect("EVERY is a number");
            let (commands, answers) = judge::sample(&file(commands), &file(original), &file(port), every);
            std::fs::write(stdin, commands).expect("STDIN can be written");
            std::fs::write(stdout, answers).expect("STDOUT can be written");
        }
        _ => usage(),
    }
}

fn usage() -> ! {
    eprintln!("{USAGE}");
    std::process::exit(2)
}
