//! Programs beside the host, for the tests with real DDS: the driver, and the independent DDS program of `dds/peer`.
#![allow(dead_code)]

use crate::common::HOST;
use std::io::{BufRead, BufReader, Read};
use std::path::{Path, PathBuf};
use std::process::{Child, Command, Stdio};
use std::sync::mpsc::{channel, Receiver, RecvTimeoutError, Sender};
use std::time::{Duration, Instant};

/// Long enough for anything that a test waits for.
pub const LONG: Duration = Duration::from_secs(20);

pub struct Program {
    child: Child,
    lines: Receiver<String>,
}

impl Drop for Program {
    fn drop(&mut self) {
        let _ = self.child.kill();
        let _ = self.child.wait();
    }
}

fn hand_on(out: impl Read + Send + 'static, lines: Sender<String>) {
    std::thread::spawn(move || BufReader::new(out).lines().map_while(Result::ok).try_for_each(|line| lines.send(line)));
}

fn start(command: &mut Command) -> Program {
    let mut child = command.stdout(Stdio::piped()).spawn().expect("the program starts");
    let (sender, lines) = channel();
    if let Some(error) = child.stderr.take() {
        hand_on(error, sender.clone());
    }
    hand_on(child.stdout.take().unwrap(), sender);
    Program { child, lines }
}

/// A client. Its lines are those of standard error too.
pub fn driver(words: &[&str]) -> Program {
    start(Command::new(Path::new(HOST).with_file_name("driver")).args(words).stderr(Stdio::piped()))
}

/// A DDS program that knows nothing of the agent.
pub fn peer(words: &[&str]) -> Program {
    start(Command::new(std::env::var_os("XRCE_PEER").expect("host/check-dds sets XRCE_PEER")).args(words))
}

/// What makes Cyclone slow, beside that program.
pub fn slow() -> PathBuf {
    PathBuf::from(std::env::var_os("XRCE_PEER").expect("host/check-dds sets XRCE_PEER")).with_file_name("slow.so")
}

/// The same over another maker's DDS.
pub fn fast(words: &[&str]) -> Program {
    start(Command::new(std::env::var_os("XRCE_FAST").expect("host/check-dds sets XRCE_FAST")).args(words))
}

/// What a peer sees of a domain: the counts of participants, writers and readers, and a line for each writer and reader.
pub struct Watch(Program);

impl Watch {
    pub fn start(domain: &str) -> Watch {
        Watch(peer(&["watch", domain, "60"]))
    }

    /// Waits until that is what there is, and gives the writers' and readers' lines.
    pub fn until(&mut self, participants: usize, writers: usize, readers: usize) -> Vec<String> {
        self.0.until(&format!("participants {participants} writers {writers} readers {readers}"));
        (0..writers + readers).map(|_| self.0.line()).collect()
    }

    /// Whether nothing changes for that long.
    pub fn is_still(&mut self, time: Duration) -> bool {
        self.0.lines.recv_timeout(time) == Err(RecvTimeoutError::Timeout)
    }
}

impl Program {
    pub fn line(&mut self) -> String {
        self.lines.recv_timeout(LONG).expect("a line")
    }

    /// Waits for a line that begins so; the lines before it.
    pub fn until(&mut self, begin: &str) -> Vec<String> {
        let start = Instant::now();
        let mut before = Vec::new();
        while start.elapsed() < LONG {
            match self.lines.recv_timeout(LONG) {
                Ok(line) if line.starts_with(begin) => return before,
                Ok(line) => before.push(line),
                Err(_) => break,
            }
        }
        panic!("no line '{begin}..' behind {before:?}")
    }

    /// Its exit code once it has ended by itself, and the lines that hadn't been read.
    pub fn ended(mut self) -> (Option<i32>, Vec<String>) {
        let lines = self.lines.iter().collect();
        (self.child.wait().unwrap().code(), lines)
    }

    /// STOP halts it and CONT lets it go on.
    pub fn signal(&self, name: &str) {
        let status = Command::new("kill").args([&format!("-{name}"), &self.child.id().to_string()]).status();
        assert!(status.is_ok_and(|status| status.success()));
    }
}

/// The driver's message of that number as a peer shows it: its first 64 bytes, and its length.
pub fn message(number: usize, size: usize) -> String {
    let letters = (8..size.min(64)).map(|at| (b'a' + ((number + at) % 26) as u8) as char);
    format!("{number:08}{} ({size})", letters.collect::<String>())
}
