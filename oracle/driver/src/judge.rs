//! Holds the port's answers to the original's, command by command, and shows the first difference.

use crate::words::silent;
use std::collections::BTreeMap;

type Verdict = Result<String, String>;

/// The answers of one side, taken apart by command.
struct Side<'a> {
    name: &'static str,
    lines: std::str::Lines<'a>,
}

impl<'a> Side<'a> {
    /// The lines up to the first that ends an answer, that one included.
    fn answer(&mut self, ends: impl Fn(&str) -> bool) -> Vec<String> {
        let mut taken = Vec::new();
        for line in self.lines.by_ref() {
            taken.push(line.to_string());
            if ends(line) {
                return taken;
            }
        }
        taken.push(format!("({} has no more lines)", self.name));
        taken
    }
}

fn first_word(line: &str) -> &str {
    line.split(' ').next().unwrap_or("")
}

// An object's line without its parent number, which the original's records lack.
fn without_parent(line: &str) -> String {
    line.split(' ').take(4).collect::<Vec<_>>().join(" ")
}

// Records are matched by number, so the order in which a table lists them is free.
fn sorted_runs(lines: &mut [String]) {
    for word in ["object ", "stream ", "held "] {
        lines.chunk_by_mut(|a, b| a.starts_with(word) && b.starts_with(word)).for_each(|run| run.sort());
    }
}

fn shown(title: &str, lines: &[String]) -> String {
    lines.iter().fold(format!("{title}:\n"), |text, line| text + "    " + &brief(line) + "\n")
}

fn brief(line: &str) -> String {
    match line.char_indices().nth(1500) {
        Some((at, _)) => format!("{} .. ({} characters)", &line[..at], line.len()),
        None => line.to_string(),
    }
}

fn summary(what: &str, counts: &BTreeMap<&str, usize>) -> String {
    let each: Vec<String> = counts.iter().map(|(word, count)| format!("{word} {count}")).collect();
    let all: usize = counts.values().sum();
    format!("{what}: {all} compared and equal ({})", each.join(", "))
}

fn nothing_left<'a>(original: &mut Side<'a>, port: &mut Side<'a>) -> Result<(), String> {
    for side in [original, port] {
        if let Some(line) = side.lines.next() {
            return Err(format!("{} has lines behind the last command: {}", side.name, brief(line)));
        }
    }
    Ok(())
}

fn sides<'a>(original: &'a str, port: &'a str) -> (Side<'a>, Side<'a>) {
    (Side { name: "the original", lines: original.lines() }, Side { name: "the port", lines: port.lines() })
}

/// The commands for the layers.
pub fn layers(commands: &str, original: &str, port: &str) -> Verdict {
    let (mut original, mut port) = sides(original, port);
    let mut counts = BTreeMap::new();
    let mut since_new: BTreeMap<&str, Vec<&str>> = BTreeMap::new();
    for (at, command) in commands.lines().enumerate().filter(|(_, line)| !silent(line)) {
        let word = first_word(command);
        let state = state_of(word);
        let script = since_new.entry(state).or_default();
        if word == state {
            script.clear();
        }
        script.push(command);
        let (ours, theirs) = (layer_answer(word, &mut original), layer_answer(word, &mut port));
        if ours != theirs {
            let script: Vec<String> = script.iter().map(|line| line.to_string()).collect();
            let script = if state.is_empty() { &script[script.len() - 1..] } else { &script[..] };
            return Err(format!(
                "line {} differs\n{}{}{}",
                at + 1,
                shown("commands", script),
                shown("the original", &ours),
                shown("the port", &theirs)
            ));
        }
        if state.is_empty() {
            script.clear();
        }
        *counts.entry(word).or_insert(0) += 1;
    }
    nothing_left(&mut original, &mut port)?;
    Ok(summary("commands for the layers", &counts))
}

/// Of the commands that need no state one in `every`, and of the rest one block in an eighth of that, where the answers are
/// the same on both sides byte for byte, with those answers: a list that can be replayed with no Rust at hand. A block is
/// all the commands on one state.
pub fn sample(commands: &str, original: &str, port: &str, every: usize) -> (String, String) {
    let (mut original, mut port) = sides(original, port);
    let (mut blocks, mut kept): (BTreeMap<&str, usize>, BTreeMap<&str, bool>) = Default::default();
    let (mut stdin, mut stdout) = (String::new(), String::new());
    for command in commands.lines().filter(|line| !silent(line)) {
        let word = first_word(command);
        let state = state_of(word);
        if state.is_empty() || word == state {
            let block = blocks.entry(if state.is_empty() { word } else { state }).or_insert(0);
            let step = if state.is_empty() { every } else { (every / 8).max(1) };
            kept.insert(state, *block % step == 0);
            *block += 1;
        }
        let (ours, theirs) = (raw_answer(word, &mut original), raw_answer(word, &mut port));
        let short = command.len() + ours.iter().map(String::len).sum::<usize>() < 4000;
        if ours == theirs && short && kept[state] {
            stdin.push_str(&format!("{command}\n"));
            ours.iter().for_each(|line| stdout.push_str(&format!("{line}\n")));
        }
    }
    (stdin, stdout)
}

// The command that makes the state on which this one works, or none.
fn state_of(word: &str) -> &str {
    match word {
        "message" | "encode" | "decode" | "cut" => "",
        "store" | "insert" | "has" | "counts" | "assemble" => "store",
        "stream" | "alloc" | "record" | "acknack" | "heartbeat" | "receive" | "make_acknack" | "held" => "stream",
        _ => "table",
    }
}

fn raw_answer(word: &str, side: &mut Side) -> Vec<String> {
    side.answer(|line| {
        let answered = first_word(line);
        let last = match word {
            "message" => "written",
            "cut" | "held" => "end",
            "dump" => "dumped",
            _ => return true,
        };
        answered == last || answered == "refused" || line == "bad line"
    })
}

fn layer_answer(word: &str, side: &mut Side) -> Vec<String> {
    let mut lines = raw_answer(word, side);
    sorted_runs(&mut lines);
    lines
}

/// What one datagram, or one other event, came to: its calls, its replies and the rest, each in order.
#[derive(Default, PartialEq, Eq)]
struct Outcome {
    calls: Vec<String>,
    replies: Vec<String>,
    rest: Vec<String>,
}

impl Outcome {
    fn add(&mut self, lines: Vec<String>) {
        for line in lines {
            match first_word(&line) {
                "call" => self.calls.push(line),
                "reply" => self.replies.push(line),
                "object" => self.rest.push(without_parent(&line)),
                _ => self.rest.push(line),
            }
        }
    }

    fn shown(&self, title: &str) -> String {
        shown(title, &[&self.calls[..], &self.replies, &self.rest].concat())
    }
}

/// Replay scripts.
pub fn replay(script: &str, original: &str, port: &str) -> Verdict {
    let (mut original, mut port) = sides(original, port);
    let mut counts = BTreeMap::new();
    let events: Vec<(usize, &str)> = script.lines().enumerate().filter(|(_, line)| !silent(line)).collect();
    let mut setup = 0;
    let mut at = 0;
    while at < events.len() {
        let first = at;
        let (mut ours, mut theirs) = (Outcome::default(), Outcome::default());
        while at == first || at < events.len() && goes_on(events[at].1) {
            ours.add(original.answer(ends_event));
            theirs.add(port.answer(ends_event));
            *counts.entry(first_word(events[at].1)).or_insert(0) += 1;
            at += 1;
        }
        // A refused set-up leaves what the ones before it made.
        if first_word(events[first].1) == "setup" && ours.rest == ["ok"] {
            setup = first;
        }
        if ours != theirs {
            let since: Vec<String> = events[setup..at].iter().map(|(_, line)| line.to_string()).collect();
            return Err(format!(
                "the event on line {} differs\n{}{}{}",
                events[first].0 + 1,
                shown("script", &since),
                ours.shown("the original"),
                theirs.shown("the port")
            ));
        }
    }
    nothing_left(&mut original, &mut port)?;
    Ok(summary("events of replay scripts", &counts))
}

// Answers belong to their datagram, and so does a question, which may stand between them.
fn goes_on(line: &str) -> bool {
    matches!(first_word(line), "created" | "done" | "data" | "none" | "failed" | "list" | "open")
}

fn ends_event(line: &str) -> bool {
    !matches!(first_word(line), "reply" | "session" | "object" | "stream" | "moved")
}
