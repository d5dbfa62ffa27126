//! The programs of the demo: a host, a DDS process that watches, and one that publishes.

use std::io::{BufRead, BufReader};
use std::path::Path;
use std::process::{Child, ChildStdout, Command, Stdio};
use std::sync::{Arc, Mutex};
use std::thread::sleep;
use std::time::{Duration, Instant};

/// Ends with its owner.
pub struct Program(Child);

impl Drop for Program {
    fn drop(&mut self) {
        let _ = self.0.kill();
        let _ = self.0.wait();
    }
}

impl Program {
    fn start(program: &Path, words: &[&str]) -> (Program, BufReader<ChildStdout>) {
        let mut child = Command::new(program).args(words).stdout(Stdio::piped()).spawn().expect("the program starts");
        let out = BufReader::new(child.stdout.take().expect("its output"));
        (Program(child), out)
    }

    /// A host, and where it listens.
    pub fn host(program: &Path, words: &[&str]) -> (Program, String) {
        let (host, mut out) = Program::start(program, words);
        let mut line = String::new();
        out.read_line(&mut line).expect("a line");
        (host, line.trim_end().strip_prefix("listening on ").expect("where it listens").into())
    }
}

/// Whether a DDS process that writes one sample to the topic finds a reader, and that has it.
pub fn publishes(peer: &Path, domain: u16, topic: &str) -> bool {
    let (mut publisher, _out) = Program::start(peer, &["pub", &domain.to_string(), topic, "1", "8"]);
    let until = Instant::now() + Duration::from_secs(3);
    while Instant::now() < until {
        if let Some(status) = publisher.0.try_wait().expect("its status") {
            return status.success();
        }
        sleep(Duration::from_millis(10));
    }
    false
}

/// A DDS process that sees which readers there are in a domain.
pub struct Watch {
    _peer: Program,
    seen: Arc<Mutex<Vec<String>>>,
}

impl Watch {
    pub fn start(peer: &Path, domain: u16) -> Watch {
        let (peer, out) = Program::start(peer, &["watch", &domain.to_string(), "60"]);
        let seen = Arc::new(Mutex::new(Vec::new()));
        let latest = seen.clone();
        // A line 'participants ..' begins what is seen anew.
        std::thread::spawn(move || {
            for line in out.lines().map_while(Result::ok) {
                let mut latest = latest.lock().expect("the lines");
                if line.starts_with("participants ") {
                    latest.clear();
                }
                latest.push(line);
            }
        });
        Watch { _peer: peer, seen }
    }

    /// The readers that there are, once so many are there or DDS has had the time to tell.
    pub fn readers(&self, many: usize) -> Vec<String> {
        let until = Instant::now() + Duration::from_secs(2);
        loop {
            let lines = self.seen.lock().expect("the lines").clone();
            let readers: Vec<String> =
                lines.iter().filter_map(|line| line.strip_prefix("reader ")).map(String::from).collect();
            if readers.len() == many || until <= Instant::now() {
                return readers;
            }
            sleep(Duration::from_millis(10));
        }
    }
}
