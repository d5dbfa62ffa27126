//! The command line of `driver`.

use std::ffi::OsString;
use std::net::{SocketAddr, ToSocketAddrs};
use std::str::FromStr;

pub const HELP: &str = "\
driver [FLAG VALUE ..]   plays a client: opens a session, creates a participant, a topic, a writer and a reader,
                         writes messages and reads each back; or writes only, or reads what others write

  --host ADDR      where the host listens                                  (127.0.0.1:2019)
  --messages N     how many                                                (5)
  --rate N         a second; 0 for as fast as it goes                      (0)
  --do WHAT        both, write or read                                     (both)
  --topic NAME     the topic's name, in UTF-8; unless it only reads, no
                   other client should write to it                         (driver_ and a number)
  --domain N       the domain of its participant, 0 to 65535               (0)
  --size N         bytes of each message, 8 to 65497                       (24)
  --datagram N     the longest datagram that it sends, 128 to 65507: a
                   message that needs a longer one goes in parts, and has
                   at most 32762 bytes                                     (65507)
  --stream N       of the reads: on one other than 0 DATA that gets lost
                   is asked for again, and has at most 1014 bytes          (1; 0 if the size is greater)
  --settle-ms N    how long it waits before its first message: DDS takes
                   a moment to find the readers of a topic elsewhere       (0)
  --patience-ms N  with --do read: how long it waits for the next message  (5000)
  --help           this text

Up to 10 messages are shown one by one, more as a summary. A missing or wrong reply ends it with exit code 1,
and so does the first write in quiet hours.
";

/// The longest datagram of UDP, and the most that fits it behind the headers of document 01.
pub const LONGEST: usize = 65_507;
pub const MOST_BYTES: usize = LONGEST - HEADERS;
/// The headers of a message and of a submessage, and the writer's number.
const HEADERS: usize = 4 + 4 + 2;
/// A message begins with its number, 8 digits.
pub const LEAST_BYTES: usize = 8;
/// The most that a DATA reply carries where the agent holds it: 1,024 bytes with its headers (document 02, W5).
pub const MOST_HELD: usize = 1024 - 10;
/// As many messages as 8 digits count.
pub const MOST_MESSAGES: u64 = 99_999_999;

/// What it does with the messages.
#[derive(Clone, Copy, Debug, PartialEq, Eq)]
pub enum Role {
    Both,
    Write,
    Read,
}

#[derive(Clone, Debug, PartialEq, Eq)]
pub struct Options {
    pub host: SocketAddr,
    pub messages: u64,
    pub rate: u64,
    pub role: Role,
    pub topic: String,
    pub domain: u16,
    pub settle_ms: u64,
    pub patience_ms: u64,
    pub size: usize,
    pub datagram: usize,
    stream: Option<u8>,
}

#[derive(Debug, PartialEq, Eq)]
pub enum Parsed {
    Run(Options),
    Help,
}

impl Default for Options {
    fn default() -> Self {
        Options {
            host: SocketAddr::from(([127, 0, 0, 1], 2019)),
            messages: 5,
            rate: 0,
            role: Role::Both,
            // A name of its own: samples of another client would reach this reader too. DDS takes letters, digits and _ in a name.
            topic: format!("driver_{}", std::process::id()),
            domain: 0,
            settle_ms: 0,
            patience_ms: 5000,
            size: 24,
            datagram: LONGEST,
            stream: None,
        }
    }
}

impl Options {
    /// The stream of the reads: if none is given, one on which nothing gets lost, where the messages aren't too long for it.
    pub fn stream(&self) -> u8 {
        self.stream.unwrap_or(if self.size > MOST_HELD { 0 } else { 1 })
    }

    /// Whether a message and its headers fit the longest datagram, or 64 parts (document 02, W6).
    fn fits(&self) -> bool {
        let submessage = self.size + HEADERS - 4;
        self.size + HEADERS <= self.datagram || submessage <= 64 * part_size(self.datagram)
    }
}

/// The body of a FRAGMENT in a datagram of at most that many bytes.
pub fn part_size(datagram: usize) -> usize {
    (datagram - 12).min(512)
}

fn within<T: FromStr + PartialOrd>(flag: &str, word: &str, least: T, most: T, wants: &str) -> Result<T, String> {
    match word.parse() {
        Ok(number) if least <= number && number <= most => Ok(number),
        _ => Err(format!("{flag} wants {wants}, not '{word}'")),
    }
}

fn address(word: &str) -> Result<SocketAddr, String> {
    let found = word.to_socket_addrs().ok().and_then(|mut all| all.next());
    found.ok_or_else(|| format!("--host wants an address and a port such as 127.0.0.1:2019, not '{word}'"))
}

fn role(word: &str) -> Result<Role, String> {
    match word {
        "both" => Ok(Role::Both),
        "write" => Ok(Role::Write),
        "read" => Ok(Role::Read),
        _ => Err(format!("--do wants both, write or read, not '{word}'")),
    }
}

fn set(options: &mut Options, flag: &str, word: &str) -> Result<(), String> {
    match flag {
        "--host" => options.host = address(word)?,
        "--messages" => options.messages = within(flag, word, 1, MOST_MESSAGES, "1 to 99999999")?,
        "--rate" => options.rate = within(flag, word, 0, 1_000_000, "0 to 1000000")?,
        "--do" => options.role = role(word)?,
        "--domain" => options.domain = within(flag, word, 0, u16::MAX, "0 to 65535")?,
        "--settle-ms" => options.settle_ms = within(flag, word, 0, 600_000, "0 to 600000")?,
        "--patience-ms" => options.patience_ms = within(flag, word, 1, 600_000, "1 to 600000")?,
        "--topic" if word.len() > 1024 => return Err("--topic wants at most 1024 bytes".into()),
        "--topic" => options.topic = word.into(),
        "--size" => options.size = within(flag, word, LEAST_BYTES, MOST_BYTES, "8 to 65497")?,
        "--datagram" => options.datagram = within(flag, word, 128, LONGEST, "128 to 65507")?,
        "--stream" => options.stream = Some(within(flag, word, 0, 255, "0 to 255")?),
        _ => return Err(format!("there is no flag '{flag}'")),
    }
    Ok(())
}

/// The words of the command line as text: the agent makes no Topic whose name is anything else (document 02, W7).
pub fn texts(words: impl Iterator<Item = OsString>) -> Result<Vec<String>, String> {
    let wrong = |word: OsString| format!("'{}' isn't UTF-8", word.as_encoded_bytes().escape_ascii());
    words.map(|word| word.into_string().map_err(wrong)).collect()
}

pub fn parse(words: &[String]) -> Result<Parsed, String> {
    if words.iter().any(|word| word == "--help" || word == "-h") {
        return Ok(Parsed::Help);
    }
    let mut options = Options::default();
    let mut rest = words.iter().map(String::as_str);
    while let Some(word) = rest.next() {
        let (flag, given) = word.split_once('=').map_or((word, None), |(flag, value)| (flag, Some(value)));
        if !flag.starts_with("--") {
            return Err(format!("'{word}' isn't a flag"));
        }
        let value = given.or_else(|| rest.next()).ok_or_else(|| format!("{flag} wants a value"))?;
        set(&mut options, flag, value)?;
    }
    if options.stream() != 0 && options.size > MOST_HELD {
        return Err(format!("--size {} wants --stream 0: the agent holds no longer ones than 1014", options.size));
    }
    if !options.fits() {
        return Err(format!("--size {} is too long for 64 parts in datagrams of {}", options.size, options.datagram));
    }
    Ok(Parsed::Run(options))
}

#[cfg(test)]
mod tests {
    use super::*;

    fn parsed(line: &str) -> Result<Parsed, String> {
        parse(&line.split_whitespace().map(String::from).collect::<Vec<_>>())
    }

    #[test]
    fn defaults_and_values() {
        assert_eq!(parsed(""), Ok(Parsed::Run(Options::default())));
        let some = Options { messages: 7, size: 65_497, topic: "a=b".into(), ..Options::default() };
        assert_eq!(parsed("--messages 7 --size=65497 --topic=a=b"), Ok(Parsed::Run(some)));
        assert_eq!(parsed("--help"), Ok(Parsed::Help));
        let other = Options { role: Role::Read, domain: 65_535, settle_ms: 3, patience_ms: 1, ..Options::default() };
        assert_eq!(parsed("--do read --domain 65535 --settle-ms 3 --patience-ms 1"), Ok(Parsed::Run(other)));
        for line in ["--size 32763 --datagram 32773", "--size 32762 --datagram 600", "--size 7418 --datagram 128"] {
            assert!(matches!(parsed(line), Ok(Parsed::Run(_))), "{line}");
        }
        for (line, stream) in
            [("", 1), ("--size 1014", 1), ("--size 1015", 0), ("--stream 0", 0), ("--stream 255", 255)]
        {
            let Ok(Parsed::Run(options)) = parsed(line) else { panic!("{line}") };
            assert_eq!(options.stream(), stream, "{line}");
        }
    }

    #[test]
    fn wrong_flags_are_told() {
        for (line, told) in [
            ("--messages 0", "--messages wants 1 to 99999999, not '0'"),
            ("--size 7", "--size wants 8 to 65497, not '7'"),
            ("--size 65498", "--size wants 8 to 65497, not '65498'"),
            ("--stream 256", "--stream wants 0 to 255, not '256'"),
            ("--stream 2 --size 1015", "--size 1015 wants --stream 0: the agent holds no longer ones than 1014"),
            ("--datagram 127", "--datagram wants 128 to 65507, not '127'"),
            ("--size 32763 --datagram 32772", "--size 32763 is too long for 64 parts in datagrams of 32772"),
            ("--size 7419 --datagram 128", "--size 7419 is too long for 64 parts in datagrams of 128"),
            ("--do all", "--do wants both, write or read, not 'all'"),
            ("--domain 65536", "--domain wants 0 to 65535, not '65536'"),
            ("--patience-ms 0", "--patience-ms wants 1 to 600000, not '0'"),
            ("--rate fast", "--rate wants 0 to 1000000, not 'fast'"),
            ("--host here", "--host wants an address and a port such as 127.0.0.1:2019, not 'here'"),
            ("--host", "--host wants a value"),
            ("--speed 1", "there is no flag '--speed'"),
            ("2019", "'2019' isn't a flag"),
        ] {
            assert_eq!(parsed(line), Err(told.into()), "{line}");
        }
    }
}
