//! The command line of `host`.

use crate::logging::Level;
use crate::quota::MOST;
use dds::{Quality, Settings};
use std::net::IpAddr;
use std::str::FromStr;
use std::time::Duration;
use xrce_agent::{Window, ALL_WEEK};

pub const HELP: &str = "\
host udp [FLAG VALUE ..]   serves DDS-XRCE clients on a UDP port until SIGINT or SIGTERM

  --port N          the port; 0 takes any that is free                  (2019)
  --bind ADDR       the address to listen on                            (127.0.0.1)
  --max-clients N   sessions live at the same time, 1 to 255            (16)
  --timeout-ms N    a session without a datagram for longer is ended    (30000)
  --sweep-ms N      how often expired sessions are looked for           (1000)
  --windows LIST    when writing is open: DAY:FROM-TO, one or several
                    with commas between, up to 8 a day in order, or none
                    for never. DAY is 0 for Monday to 6 for Sunday, FROM
                    and TO are minutes of the day, 0 to 1440; FROM is
                    open and TO closed. 0:480-1320 is Mondays from 8 to
                    22 o'clock                                          (every day 0-1440)
  --utc-offset N    by how many minutes the clock of the windows is
                    ahead of UTC, -720 to 840                           (0)
  --log LEVEL       error, warn, info or debug, to standard error       (info)
  --bridge KIND     memory, or dds for Cyclone DDS                      (memory)
  --help            this text

With --bridge dds:
  --domain-offset N a client's domain and N together are the DDS domain,
                    which is at most 232                                (0)
  --reliability R   reliable or best-effort, of all writers and readers (reliable)
  --history N       each keeps the last N samples, 1 to 1000            (64)
  --dds-wait-ms N   nobody waits longer for a call of DDS: it is answered
                    as failed then, 1 to 10000                          (500)

In memory, a writer's samples reach the readers of the same topic name; a reader holds at most 64 samples and
131,072 bytes, and loses the oldest. In a closed minute a write is answered ERR_INCOMPATIBLE and reaches no
reader. The first line on standard output is 'listening on ADDR'.
";

/// All clients together may be in so many DDS domains: each has some six threads and sockets.
const DOMAINS: usize = 64;

#[derive(Clone, Debug, PartialEq, Eq)]
pub struct Options {
    pub port: u16,
    pub bind: IpAddr,
    pub max_clients: u64,
    pub timeout_ms: u64,
    pub sweep_ms: u64,
    pub windows: Vec<Window>,
    /// By how many minutes the clock of the windows is ahead of UTC.
    pub utc_offset: i64,
    pub log: Level,
    pub bridge: BridgeKind,
    pub dds: Settings,
    /// Every call of that number fails; 0 for none. Left out of the help: it is there for tests.
    pub bridge_fails: u64,
}

#[derive(Clone, Copy, Debug, PartialEq, Eq)]
pub enum BridgeKind {
    Memory,
    Dds,
}

#[derive(Debug, PartialEq, Eq)]
pub enum Parsed {
    Run(Options),
    Help,
}

impl Default for Options {
    fn default() -> Self {
        Options {
            port: 2019,
            bind: IpAddr::from([127, 0, 0, 1]),
            max_clients: 16,
            timeout_ms: 30_000,
            sweep_ms: 1000,
            windows: ALL_WEEK.to_vec(),
            utc_offset: 0,
            log: Level::Info,
            bridge: BridgeKind::Memory,
            dds: Settings {
                domain_offset: 0,
                quality: Quality { best_effort: false, history: 64 },
                wait: Duration::from_millis(500),
                most: MOST,
                domains: DOMAINS,
            },
            bridge_fails: 0,
        }
    }
}

fn value<T: FromStr>(flag: &str, word: &str, wants: &str) -> Result<T, String> {
    word.parse().map_err(|_| format!("{flag} wants {wants}, not '{word}'"))
}

fn within(flag: &str, word: &str, least: u64, most: u64) -> Result<u64, String> {
    let wants = if most == u64::MAX { format!("a number from {least}") } else { format!("{least} to {most}") };
    match value(flag, word, &wants)? {
        number if (least..=most).contains(&number) => Ok(number),
        _ => Err(format!("{flag} wants {wants}, not '{word}'")),
    }
}

// Whether they fit together is the agent's to say, at set-up.
fn windows(flag: &str, word: &str) -> Result<Vec<Window>, String> {
    if word == "none" {
        return Ok(Vec::new());
    }
    let all: Option<Vec<Window>> = word.split(',').map(window).collect();
    all.ok_or_else(|| format!("{flag} wants DAY:FROM-TO,.. or none, not '{word}'"))
}

fn window(word: &str) -> Option<Window> {
    let (day, minutes) = word.split_once(':')?;
    let (from, to) = minutes.split_once('-')?;
    Some(Window::new(day.parse().ok()?, from.parse().ok()?, to.parse().ok()?))
}

// From the furthest behind UTC to the furthest ahead of it that any place has.
fn offset(flag: &str, word: &str) -> Result<i64, String> {
    let wants = "-720 to 840";
    let number: i64 = value(flag, word, wants)?;
    (-720..=840).contains(&number).then_some(number).ok_or_else(|| format!("{flag} wants {wants}, not '{word}'"))
}

// One of the words, with what it stands for.
fn word<T: Copy>(flag: &str, word: &str, known: &[(&str, T)]) -> Result<T, String> {
    let found = known.iter().find(|(its, _)| *its == word).map(|(_, meant)| *meant);
    let wants = known.iter().map(|(its, _)| *its).collect::<Vec<_>>().join(" or ");
    found.ok_or_else(|| format!("{flag} wants {wants}, not '{word}'"))
}

// The flags that only the bridge to DDS goes by; whether this is one.
fn set_dds(settings: &mut Settings, flag: &str, given: &str) -> Result<bool, String> {
    match flag {
        "--domain-offset" => settings.domain_offset = within(flag, given, 0, 232)? as u16,
        "--reliability" => {
            settings.quality.best_effort = word(flag, given, &[("reliable", false), ("best-effort", true)])?
        }
        "--history" => settings.quality.history = within(flag, given, 1, 1000)? as u16,
        "--dds-wait-ms" => settings.wait = Duration::from_millis(within(flag, given, 1, 10_000)?),
        _ => return Ok(false),
    }
    Ok(true)
}

// The limits on clients and timeout are those of the original's `validate`, which document 01 leaves to the host.
fn set(options: &mut Options, flag: &str, given: &str) -> Result<(), String> {
    match flag {
        "--port" => options.port = value(flag, given, "0 to 65535")?,
        "--bind" => options.bind = value(flag, given, "an address such as 127.0.0.1")?,
        "--max-clients" => options.max_clients = within(flag, given, 1, 255)?,
        "--timeout-ms" => options.timeout_ms = within(flag, given, 1, u64::MAX)?,
        "--sweep-ms" => options.sweep_ms = within(flag, given, 1, u64::MAX)?,
        "--windows" => options.windows = windows(flag, given)?,
        "--utc-offset" => options.utc_offset = offset(flag, given)?,
        "--log" => options.log = value(flag, given, "error, warn, info or debug")?,
        "--bridge" => options.bridge = word(flag, given, &[("memory", BridgeKind::Memory), ("dds", BridgeKind::Dds)])?,
        "--bridge-fails" => options.bridge_fails = within(flag, given, 0, u64::MAX)?,
        _ => return Err(format!("there is no flag '{flag}'")),
    }
    Ok(())
}

pub fn parse(words: &[String]) -> Result<Parsed, String> {
    if words.iter().any(|word| word == "--help" || word == "-h") {
        return Ok(Parsed::Help);
    }
    let mut rest = words.iter().map(String::as_str);
    match rest.next() {
        Some("udp") => {}
        Some(other) => return Err(format!("there is no transport '{other}': the first word is udp")),
        None => return Err("the first word is the transport: udp".into()),
    }
    let (mut options, mut of_dds) = (Options::default(), None);
    while let Some(word) = rest.next() {
        let (flag, given) = word.split_once('=').map_or((word, None), |(flag, value)| (flag, Some(value)));
        let known = flag.starts_with("--").then_some(()).ok_or_else(|| format!("'{word}' isn't a flag"));
        let value =
            known.and_then(|()| given.or_else(|| rest.next()).ok_or_else(|| format!("{flag} wants a value")))?;
        if set_dds(&mut options.dds, flag, value)? {
            of_dds = Some(flag);
        } else {
            set(&mut options, flag, value)?;
        }
    }
    match of_dds {
        Some(flag) if options.bridge != BridgeKind::Dds => Err(format!("{flag} goes with --bridge dds")),
        _ => Ok(Parsed::Run(options)),
    }
}

#[cfg(test)]
mod tests {
    use super::*;

    fn parsed(line: &str) -> Result<Parsed, String> {
        parse(&line.split_whitespace().map(String::from).collect::<Vec<_>>())
    }

    #[test]
    fn defaults_and_values() {
        assert_eq!(parsed("udp"), Ok(Parsed::Run(Options::default())));
        let some = Options { port: 0, max_clients: 255, log: Level::Debug, ..Options::default() };
        assert_eq!(parsed("udp --port 0 --max-clients=255 --log debug"), Ok(Parsed::Run(some)));
        assert_eq!(parsed("udp --port x --help"), Ok(Parsed::Help));
    }

    #[test]
    fn windows_and_their_clock() {
        let run = |windows: &[Window], utc_offset| {
            Ok(Parsed::Run(Options { windows: windows.to_vec(), utc_offset, ..Options::default() }))
        };
        assert_eq!(parsed("udp --windows 0:480-1320"), run(&[Window::new(0, 480, 1320)], 0));
        let two = [Window::new(6, 0, 1), Window::new(7, 9, 3)];
        assert_eq!(parsed("udp --windows 6:0-1,7:9-3 --utc-offset -60"), run(&two, -60));
        assert_eq!(parsed("udp --windows=none --utc-offset=840"), run(&[], 840));
    }

    #[test]
    fn the_bridge_to_dds_and_its_flags() {
        let dds = |settings| Ok(Parsed::Run(Options { bridge: BridgeKind::Dds, dds: settings, ..Options::default() }));
        let usual = Options::default().dds;
        assert_eq!(usual.quality, Quality { best_effort: false, history: 64 });
        assert_eq!(parsed("udp --bridge memory"), Ok(Parsed::Run(Options::default())));
        assert_eq!(parsed("udp --bridge dds"), dds(usual));
        assert_eq!(parsed("udp --domain-offset 7 --bridge dds"), dds(Settings { domain_offset: 7, ..usual }));
        let quality = Quality { best_effort: true, history: 1 };
        assert_eq!(
            parsed("udp --bridge=dds --reliability best-effort --history 1 --dds-wait-ms 5"),
            dds(Settings { quality, wait: Duration::from_millis(5), ..usual })
        );
    }

    #[test]
    fn wrong_flags_are_told() {
        for (line, told) in [
            ("", "the first word is the transport: udp"),
            ("tcp", "there is no transport 'tcp': the first word is udp"),
            ("udp --port", "--port wants a value"),
            ("udp --port 65536", "--port wants 0 to 65535, not '65536'"),
            ("udp --max-clients 0", "--max-clients wants 1 to 255, not '0'"),
            ("udp --max-clients 256", "--max-clients wants 1 to 255, not '256'"),
            ("udp --timeout-ms 0", "--timeout-ms wants a number from 1, not '0'"),
            ("udp --windows 0:480", "--windows wants DAY:FROM-TO,.. or none, not '0:480'"),
            ("udp --windows 0:1-2,", "--windows wants DAY:FROM-TO,.. or none, not '0:1-2,'"),
            ("udp --windows 0:1-65536", "--windows wants DAY:FROM-TO,.. or none, not '0:1-65536'"),
            ("udp --utc-offset 841", "--utc-offset wants -720 to 840, not '841'"),
            ("udp --utc-offset east", "--utc-offset wants -720 to 840, not 'east'"),
            ("udp --log loud", "--log wants error, warn, info or debug, not 'loud'"),
            ("udp --bridge none", "--bridge wants memory or dds, not 'none'"),
            ("udp --bridge dds --domain-offset 233", "--domain-offset wants 0 to 232, not '233'"),
            ("udp --bridge dds --reliability most", "--reliability wants reliable or best-effort, not 'most'"),
            ("udp --bridge dds --history 0", "--history wants 1 to 1000, not '0'"),
            ("udp --bridge dds --dds-wait-ms 0", "--dds-wait-ms wants 1 to 10000, not '0'"),
            ("udp --history 5", "--history goes with --bridge dds"),
            ("udp --domain-offset 0 --bridge memory", "--domain-offset goes with --bridge dds"),
            ("udp --colour red", "there is no flag '--colour'"),
            ("udp port 1", "'port' isn't a flag"),
        ] {
            assert_eq!(parsed(line), Err(told.into()), "{line}");
        }
    }
}
