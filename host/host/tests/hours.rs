//! Quiet hours (document 02, W8) by the machine's clock: writes are answered ERR_INCOMPATIBLE, and all else goes on.

mod common;

use common::{ask, creates_all, open, Running, HOST, READER, WRITER};
use std::net::UdpSocket;
use std::process::Command;
use std::time::{SystemTime, UNIX_EPOCH};
use wire::{Datagram, ERR_INCOMPATIBLE, OK};

/// The code with which a host of these flags answers a write. Objects are made and a read is done whatever that is.
fn writes(flags: &[&str]) -> u8 {
    let host = Running::start(flags);
    let client = host.client();
    let (session, _) = open(&client);
    creates_all(&client, session, b"hours");
    let reply = ask(&client, Datagram::new(session, 0).write_data(WRITER, b"sample"));
    let code = *reply.last().unwrap();
    assert_eq!(reply, Datagram::new(session, 0).status(WRITER, code).bytes());
    assert_eq!(read(&client, session), if code == OK { b"sample".to_vec() } else { vec![] });
    assert_eq!(host.end("-TERM").0, Some(0));
    code
}

// The sample that is there, or no bytes if the read is answered OK without one.
fn read(client: &UdpSocket, session: u8) -> Vec<u8> {
    let reply = ask(client, Datagram::new(session, 0).read_data(READER));
    if reply == Datagram::new(session, 0).status(READER, OK).bytes() {
        return Vec::new();
    }
    let data = reply[10..].to_vec();
    assert_eq!(reply, Datagram::new(session, 0).data(READER, &data).bytes());
    data
}

/// The weekdays from today by UTC on, each open all day.
fn days(from: u64, count: u64) -> String {
    let today = SystemTime::now().duration_since(UNIX_EPOCH).unwrap().as_secs() / 86_400 + 3;
    let day = |at| format!("{}:0-1440", (today + at) % 7);
    (from..from + count).map(day).collect::<Vec<_>>().join(",")
}

#[test]
fn writing_is_open_all_week_if_nothing_else_is_said() {
    assert_eq!(writes(&[]), OK);
    assert_eq!(writes(&["--utc-offset", "840"]), OK);
}

// Midnight may come between: so two days are open, and then the other five.
#[test]
fn the_machines_clock_says_which_weekday_it_is() {
    assert_eq!(writes(&["--windows", &days(0, 2)]), OK);
    assert_eq!(writes(&["--windows", &days(2, 5)]), ERR_INCOMPATIBLE);
    assert_eq!(writes(&["--windows=none"]), ERR_INCOMPATIBLE);
}

#[test]
fn windows_that_do_not_fit_end_it_before_it_listens() {
    for windows in ["7:0-1", "0:5-5", "0:0-1441", "1:0-60,1:59-70", "1:60-70,1:0-60"] {
        let told = Command::new(HOST).args(["udp", "--port", "0", "--windows", windows]).output().unwrap();
        assert_eq!((told.status.code(), told.stdout.len()), (Some(1), 0), "{windows}");
        let text = String::from_utf8_lossy(&told.stderr).into_owned();
        assert!(text.starts_with("host: the agent can't be set up: a window empty, outside the day,"), "{text}");
    }
}

#[test]
fn it_says_when_writing_is_open_next() {
    let told = |flags: &[&str]| {
        let host = Running::start(flags);
        open(&host.client());
        host.end("-TERM").1
    };
    assert!(told(&["--windows", "none"]).starts_with("info: writing is never open\n"));
    assert!(told(&["--windows", &days(3, 1)]).starts_with("info: writing is closed until weekday "));
    assert_eq!(told(&[]), "served 1 datagrams\n");
}
