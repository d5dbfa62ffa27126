//! The program itself: flags, replies to the sender, expiry, and its end by a signal.

mod common;

use common::{ask, open, Running, HOST};
use std::process::{Command, Output};
use std::time::Duration;
use wire::{strings, Datagram};

fn run(words: &[&str]) -> Output {
    Command::new(HOST).args(words).output().unwrap()
}

#[test]
fn help_and_wrong_flags() {
    let help = run(&["--help"]);
    assert!(help.status.success() && help.stdout.starts_with(b"host udp"));
    for words in [&[][..], &["tcp"], &["udp", "--port", "x"], &["udp", "--loud", "1"]] {
        let told = run(words);
        assert_eq!((told.status.code(), told.stdout.len()), (Some(2), 0), "{words:?}");
        assert!(told.stderr.starts_with(b"host: "), "{words:?}");
    }
}

#[test]
fn a_port_that_is_taken() {
    let first = Running::start(&[]);
    let port = first.address.rsplit(':').next().unwrap();
    let told = run(&["udp", "--port", port]);
    assert_eq!(told.status.code(), Some(1));
    assert!(String::from_utf8_lossy(&told.stderr).contains("can't listen on 127.0.0.1"));
}

#[test]
fn both_signals_end_it_with_0() {
    for signal in ["-TERM", "-INT"] {
        let host = Running::start(&[]);
        open(&host.client());
        host.client().send(&[1, 0, 0, 0]).unwrap();
        open(&host.client());
        let (code, text) = host.end(signal);
        assert_eq!(code, Some(0));
        assert!(text.contains("refused 1: bytes missing, no submessage"), "{text}");
        assert!(text.ends_with("served 3 datagrams\n"), "{text}");
    }
}

#[test]
fn samples_go_from_client_to_client_and_replies_to_their_sender() {
    let host = Running::start(&["--log", "error"]);
    let (one, two) = (host.client(), host.client());
    assert_eq!((open(&one), open(&two)), ((1, 0), (2, 0)));
    for (client, id, kind) in [(&one, 1, wire::DATA_WRITER), (&two, 2, wire::DATA_READER)] {
        for (object, kind, parent, text) in
            [(1, wire::PARTICIPANT, 0, vec![]), (2, wire::TOPIC, 1, strings(b"shared", b"t")), (3, kind, 2, vec![])]
        {
            let reply = ask(client, Datagram::new(id, 0).create(object, kind, parent, &text));
            assert_eq!(reply, Datagram::new(id, 0).status(object, 0).bytes());
        }
    }
    let large = vec![7; 65_497];
    assert_eq!(ask(&one, Datagram::new(1, 0).write_data(3, &large)), Datagram::new(1, 0).status(3, 0).bytes());
    assert_eq!(ask(&two, Datagram::new(2, 0).read_data(3)), Datagram::new(2, 0).data(3, &large).bytes());
    // Several replies to one datagram are datagrams of their own.
    one.send(&Datagram::new(1, 0).write_data(3, b"x").heartbeat(0, 0).delete(9).bytes()).unwrap();
    let lengths: Vec<usize> = (0..3).map(|_| one.recv(&mut [0; 64]).unwrap()).collect();
    assert_eq!(lengths, [11, 12, 11]);
}

#[test]
fn a_full_table_and_expiry() {
    let host = Running::start(&["--max-clients", "1", "--timeout-ms", "300", "--sweep-ms", "10", "--log", "info"]);
    let client = host.client();
    assert_eq!(open(&client), (1, 0));
    assert_eq!(open(&client), (0, wire::ERR_RESOURCES));
    std::thread::sleep(Duration::from_millis(900));
    assert_eq!(open(&client), (2, 0));
    assert!(host.end("-TERM").1.contains("session 1 expired"));
}
