//! The program `driver`: a client that writes messages over UDP and reads them back, or does one of the two.

mod args;
mod client;
mod messages;
mod parts;
mod progress;
mod reading;
mod summary;

use args::{parse, texts, Options, Parsed, Role, HELP};
use client::{Client, Wrong};
use messages::{Messages, READER, WRITER};
use std::process::ExitCode;

fn main() -> ExitCode {
    let options = match texts(std::env::args_os().skip(1)).and_then(|words| parse(&words)) {
        Ok(Parsed::Run(options)) => options,
        Ok(Parsed::Help) => {
            print!("{HELP}");
            return ExitCode::SUCCESS;
        }
        Err(wrong) => {
            eprintln!("driver: {wrong}\ndriver --help says what it takes");
            return ExitCode::from(2);
        }
    };
    match run(&options) {
        Ok(()) => ExitCode::SUCCESS,
        Err(wrong) => {
            eprintln!("driver: {wrong}");
            ExitCode::FAILURE
        }
    }
}

/// An object with its number, kind, parent and what it is called.
type Object = (u16, u8, u16, &'static str);

// Objects of the session that is opened here, each after what it depends on: up to four, by what it does.
fn objects(options: &Options) -> Vec<Object> {
    let (writes, reads) = (options.role != Role::Read, options.role != Role::Write);
    let writer: Option<Object> = writes.then_some((WRITER, wire::DATA_WRITER, 2, "writer"));
    let reader: Option<Object> = reads.then_some((READER, wire::DATA_READER, 2, "reader"));
    let first = [(1, wire::PARTICIPANT, options.domain, "participant"), (2, wire::TOPIC, 1, "topic")];
    first.into_iter().chain(writer).chain(reader).collect()
}

fn run(options: &Options) -> Result<(), Wrong> {
    let mut client = Client::connect(options.host, options.stream(), options.datagram)?;
    println!("session {} opened by {}, reads on stream {}", client.session(), options.host, options.stream());
    let names = wire::strings(options.topic.as_bytes(), b"driver::Message");
    let mut objects = objects(options);
    for (object, kind, parent, what) in &objects {
        let strings = if *kind == wire::TOPIC { &names[..] } else { &[] };
        client.create(*object, *kind, *parent, strings, what)?;
    }
    println!("created {}", told(&objects, &options.topic));
    let summary = Messages::new(options).exchange(&mut client)?;
    print!("{summary}");
    // In the order of the agent's listing: what others depend on can't be deleted before them.
    objects.reverse();
    for (object, _, _, what) in &objects {
        client.delete(*object, what)?;
    }
    println!("deleted the {} objects", if objects.len() == 4 { "four" } else { "three" });
    Ok(())
}

fn told(objects: &[Object], topic: &str) -> String {
    let one = |(number, kind, _, what): &Object| match *kind {
        wire::TOPIC => format!("{what} {number} '{topic}'"),
        _ => format!("{what} {number}"),
    };
    objects.iter().map(one).collect::<Vec<_>>().join(", ")
}
