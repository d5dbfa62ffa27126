//! The bridge to DDS, with Cyclone DDS and programs of its own beside the host. Each test has a domain of its own. host/check-dds
//! runs them; they take Cyclone DDS, and a configuration of it that keeps to the loopback.

mod common;
mod programs;

use common::{ask, creates_all, creates_typed, open, Running, HOST, READER, WRITER};
use programs::{driver, fast, message, peer, slow, Watch};
use std::net::UdpSocket;
use std::process::Command;
use std::time::{Duration, Instant};
use wire::{strings, Body, Datagram, Reply, ERR_INVALID_DATA, ERR_UNKNOWN_REF, OK};

/// On this machine DDS takes some milliseconds to find a reader elsewhere.
const SETTLE: &str = "1500";

fn host(domain: &str, flags: &[&str]) -> Running {
    Running::start(&[&["--bridge", "dds", "--domain-offset", domain], flags].concat())
}

fn writes(host: &Running, words: &[&str]) -> programs::Program {
    driver(&[&["--host", &host.address, "--do", "write", "--settle-ms", SETTLE], words].concat())
}

fn reads(host: &Running, words: &[&str]) -> programs::Program {
    driver(&[&["--host", &host.address, "--do", "read", "--patience-ms", "15000"], words].concat())
}

// The code with which a request about an object is answered.
fn code(client: &UdpSocket, object: u16, datagram: Datagram) -> u8 {
    match Reply::read(&ask(client, datagram)).unwrap().body {
        Body::Status { object: its, code } if its == object => code,
        other => panic!("{other:?}"),
    }
}

fn create(client: &UdpSocket, session: u8, object: u16, kind: u8, parent: u16, text: &[u8]) -> u8 {
    code(client, object, Datagram::new(session, 0).create(object, kind, parent, text))
}

// The sample that is there, or none.
fn read(client: &UdpSocket, session: u8) -> Option<Vec<u8>> {
    match Reply::read(&ask(client, Datagram::new(session, 0).read_data(READER))).unwrap().body {
        Body::Data { reader: READER, data } => Some(data.to_vec()),
        Body::Status { object: READER, code: OK } => None,
        other => panic!("{other:?}"),
    }
}

fn all_ok(driver: programs::Program) {
    let (code, lines) = driver.ended();
    assert_eq!(code, Some(0), "{lines:?}");
}

fn a_subscriber_gets_all(domain: &str, subscriber: fn(&[&str]) -> programs::Program) {
    let host = host(domain, &[]);
    for (topic, size) in [("small", 24), ("large", 60_000)] {
        let mut sub = subscriber(&["sub", domain, topic, "20", "20"]);
        sub.until("ready");
        let writer = writes(&host, &["--topic", topic, "--messages", "20", "--size", &size.to_string()]);
        sub.until("matched");
        let got: Vec<String> = (1..=20).map(|_| sub.line()).collect();
        assert_eq!(got, (1..=20).map(|number| message(number, size)).collect::<Vec<_>>());
        all_ok(writer);
    }
    assert_eq!(host.end("-TERM").0, Some(0));
}

fn a_publisher_is_read(domain: &str, publisher: fn(&[&str]) -> programs::Program) {
    let host = host(domain, &[]);
    for (topic, size) in [("small", "24"), ("large", "60000")] {
        let mut reader = reads(&host, &["--topic", topic, "--messages", "20", "--size", size]);
        reader.until("created");
        let mut publisher = publisher(&["pub", domain, topic, "20", size]);
        publisher.until("written");
        let (code, lines) = reader.ended();
        assert_eq!(code, Some(0), "{lines:?}");
        assert!(lines.contains(&format!("20 messages of {size} bytes read, none missing or wrong")), "{lines:?}");
        assert!(lines.iter().any(|line| line.contains(" 0 samples came twice")), "{lines:?}");
    }
}

#[test]
#[ignore = "host/check-dds runs it"]
fn a_subscriber_elsewhere_gets_what_the_driver_writes() {
    a_subscriber_gets_all("40", peer);
}

#[test]
#[ignore = "host/check-dds runs it"]
fn the_driver_reads_what_a_publisher_elsewhere_writes() {
    a_publisher_is_read("42", peer);
}

// With another maker's DDS, where that is installed.
#[test]
#[ignore = "host/check-dds runs it"]
fn other_dds_a_subscriber_gets_what_the_driver_writes() {
    a_subscriber_gets_all("64", fast);
}

#[test]
#[ignore = "host/check-dds runs it"]
fn other_dds_the_driver_reads_what_a_publisher_writes() {
    a_publisher_is_read("66", fast);
}

// Both write to the same topic name, messages of other lengths. A reader that heard the other domain would end with exit code 1.
#[test]
#[ignore = "host/check-dds runs it"]
fn two_domains_do_not_hear_each_other() {
    let host = host("44", &[]);
    let flags = |domain, size| ["--topic", "same", "--domain", domain, "--size", size, "--messages", "50"];
    let sides = [flags("0", "24"), flags("1", "32")];
    let mut readers = sides.map(|words| reads(&host, &words));
    readers.iter_mut().for_each(|reader| drop(reader.until("created")));
    let writers = sides.map(|words| writes(&host, &words));
    writers.into_iter().chain(readers).for_each(all_ok);
    // The control: on one domain they do hear each other.
    let mut reader = reads(&host, &["--topic", "same", "--size", "24", "--messages", "50"]);
    reader.until("created");
    all_ok(writes(&host, &["--topic", "same", "--size", "32", "--messages", "50"]));
    let (code, lines) = reader.ended();
    assert!(
        code == Some(1) && lines.iter().any(|line| line.contains("another sample was read for message 1")),
        "{lines:?}"
    );
}

#[test]
#[ignore = "host/check-dds runs it"]
fn two_hosts_on_one_domain_are_joined_by_dds() {
    let hosts = [host("47", &[]), host("46", &[])];
    // Domain 1 of the one is domain 0 of the other.
    for (from, to, topic) in [(0, 1, "there"), (1, 0, "back")] {
        let words = |host| ["--topic", topic, "--messages", "50", "--domain", if host == 0 { "0" } else { "1" }];
        let mut reader = reads(&hosts[to], &words(to));
        reader.until("created");
        let writer = writes(&hosts[from], &words(from));
        let (code, lines) = reader.ended();
        assert_eq!(code, Some(0), "{lines:?}");
        all_ok(writer);
    }
}

#[test]
#[ignore = "host/check-dds runs it"]
fn a_host_that_is_killed_and_started_again_serves_on() {
    let mut first = host("48", &[]);
    let address = first.address.clone();
    let mut sub = peer(&["sub", "48", "on", "20", "40"]);
    sub.until("ready");
    all_ok(writes(&first, &["--topic", "on", "--messages", "10"]));
    // A session with entities is open when it is killed.
    creates_all(&first.client(), open(&first.client()).0, b"lost");
    first.child.kill().unwrap();
    first.child.wait().unwrap();
    let again = host("48", &["--port", address.rsplit(':').next().unwrap()]);
    assert_eq!(again.address, address);
    all_ok(writes(&again, &["--topic", "on", "--messages", "10"]));
    all_ok(driver(&["--host", &address, "--messages", "20"]));
    let (code, mut lines) = sub.ended();
    lines.retain(|line| line != "matched");
    let sent: Vec<String> = (1..=10).chain(1..=10).map(|number| message(number, 24)).collect();
    assert_eq!((code, &lines[..20]), (Some(0), &sent[..]));
    let (code, text) = again.end("-TERM");
    assert!(code == Some(0) && text.contains("\n0 entities left in DDS\n"), "{text}");
}

// Another process counts what there is. The session that stays has the same entities after the other one has expired.
#[test]
#[ignore = "host/check-dds runs it"]
fn a_session_that_ends_takes_its_own_entities_along_and_no_others() {
    let host = host("50", &["--timeout-ms", "1500", "--sweep-ms", "50"]);
    let mut watch = Watch::start("50");
    watch.until(0, 0, 0);
    let (stays, goes) = (host.client(), host.client());
    let (staying, going) = (open(&stays).0, open(&goes).0);
    creates_all(&stays, staying, b"kept");
    let kept = watch.until(1, 1, 1);
    // Topic and type have the names that the client gave.
    assert!(kept.iter().all(|line| line.ends_with(" kept t")), "{kept:?}");
    creates_all(&goes, going, b"gone");
    watch.until(2, 2, 2);
    // An object that is created again leaves its older entity without one, until the session ends.
    for _ in 0..5 {
        assert_eq!(create(&goes, going, READER, wire::DATA_READER, 2, &[]), OK);
    }
    watch.until(2, 2, 7);
    let start = Instant::now();
    while start.elapsed() < Duration::from_secs(3) {
        assert_eq!(read(&stays, staying), None);
        std::thread::sleep(Duration::from_millis(100));
    }
    assert_eq!(watch.until(1, 1, 1), kept);
    assert!(watch.is_still(Duration::from_millis(200)));
    assert_eq!(code(&stays, WRITER, Datagram::new(staying, 0).write_data(WRITER, b"x")), OK);
    assert_eq!(read(&stays, staying), Some(b"x".to_vec()));
    let (code, text) = host.end("-TERM");
    assert_eq!(code, Some(0));
    assert!(text.contains(&format!("info: session {going}: made 9 entities, deleted 9; 4 left in DDS\n")), "{text}");
    assert!(text.contains(&format!("info: session {staying}: made 4 entities, deleted 4; 0 left in DDS\n")), "{text}");
    assert!(text.ends_with(" datagrams\n") && text.contains("\n0 entities left in DDS\n"), "{text}");
    watch.until(0, 0, 0);
}

#[test]
#[ignore = "host/check-dds runs it"]
fn a_delete_deletes_that_entity_alone() {
    let host = host("52", &[]);
    let mut watch = Watch::start("52");
    let (one, two) = (host.client(), host.client());
    let (first, second) = (open(&one).0, open(&two).0);
    creates_all(&one, first, b"same");
    creates_all(&two, second, b"same");
    let all = watch.until(2, 2, 2);
    assert_eq!(code(&one, READER, Datagram::new(first, 0).delete(READER)), OK);
    let left = watch.until(2, 2, 1);
    assert!(left.iter().all(|line| all.contains(line)));
    assert_eq!(code(&one, WRITER, Datagram::new(first, 0).delete(WRITER)), OK);
    assert!(watch.until(2, 1, 1).iter().all(|line| left.contains(line)));
    assert_eq!(code(&one, 2, Datagram::new(first, 0).delete(2)), OK);
    assert_eq!(code(&one, 1, Datagram::new(first, 0).delete(1)), OK);
    watch.until(1, 1, 1);
    assert_eq!(code(&two, WRITER, Datagram::new(second, 0).write_data(WRITER, b"x")), OK);
    assert_eq!(read(&two, second), Some(b"x".to_vec()));
    let (_, text) = host.end("-TERM");
    assert!(text.contains(&format!("session {first}: made 4 entities, deleted 4;")), "{text}");
}

// DDS takes two seconds for one client's topic. That client is answered in the stated time, and the other one right behind it. The topic
// that DDS makes in the end is deleted.
#[test]
#[ignore = "host/check-dds runs it"]
fn a_slow_call_of_dds_blocks_the_socket_as_long_as_stated() {
    let (stated, margin) = (Duration::from_millis(300), Duration::from_millis(250));
    let flags = ["udp", "--port", "0", "--bridge", "dds", "--domain-offset", "68", "--dds-wait-ms", "300"];
    let host = Running::start_as(Command::new(HOST).args(flags).env("LD_PRELOAD", slow()));
    let (one, two) = (host.client(), host.client());
    let (first, second) = (open(&one).0, open(&two).0);
    creates_all(&one, first, b"quick");
    creates_all(&two, second, b"quick");
    let start = Instant::now();
    one.send(&Datagram::new(first, 0).create(5, wire::TOPIC, 1, &strings(b"slow", b"t")).bytes()).unwrap();
    std::thread::sleep(Duration::from_millis(20));
    assert_eq!(code(&two, WRITER, Datagram::new(second, 0).write_data(WRITER, b"x")), OK);
    assert!((stated..stated + margin).contains(&start.elapsed()), "{:?}", start.elapsed());
    let mut inbox = [0; 64];
    let len = one.recv(&mut inbox).unwrap();
    assert_eq!(inbox[..len], Datagram::new(first, 0).status(5, ERR_INVALID_DATA).bytes());
    // Meanwhile the first one makes nothing, but is answered at once, and writes and reads.
    assert_eq!(create(&one, first, 6, wire::DATA_READER, 2, &[]), ERR_INVALID_DATA);
    assert_eq!(read(&one, first), Some(b"x".to_vec()));
    assert!(start.elapsed() < stated + margin, "{:?}", start.elapsed());
    std::thread::sleep(Duration::from_secs(2));
    assert_eq!(create(&one, first, 6, wire::DATA_READER, 2, &[]), OK);
    let (_, text) = host.end("-TERM");
    assert!(
        text.contains(&format!("warn: session {first}: create_topic failed: it takes longer than 300 ms\n")),
        "{text}"
    );
    assert!(text.contains(&format!("info: session {first}: made 5 entities, deleted 5;")), "{text}");
    assert!(text.contains("\n0 entities left in DDS\n"), "{text}");
}

// Its DATA would be longer than a submessage can be (document 01, 12). The sample is lost, and the reader goes on.
#[test]
#[ignore = "host/check-dds runs it"]
fn a_sample_that_no_reply_can_carry_is_a_failed_read() {
    let host = host("70", &[]);
    let client = host.client();
    let session = open(&client).0;
    creates_typed(&client, session, b"long", b"driver::Message");
    peer(&["pub", "70", "long", "1", "65534"]).until("written");
    assert_eq!(code(&client, READER, Datagram::new(session, 0).read_data(READER)), ERR_INVALID_DATA);
    assert_eq!(read(&client, session), None);
    peer(&["pub", "70", "long", "1", "60000"]).until("written");
    assert_eq!(read(&client, session).map(|sample| sample.len()), Some(60_000));
    assert!(host.end("-TERM").1.contains("read_data failed: a sample of 65534 bytes is too long"));
}

// DDS waits a second for a reader that is behind before it lets a writer go. Here the reader's process is halted. Nobody waits for that,
// neither the client whose writer it is nor the other one, and in the end nothing is left.
#[test]
#[ignore = "host/check-dds runs it"]
fn a_reader_elsewhere_that_is_stuck_holds_up_nobody() {
    let stated = Duration::from_millis(200);
    let host = host("62", &["--dds-wait-ms", "200"]);
    let (one, two) = (host.client(), host.client());
    let (first, second) = (open(&one).0, open(&two).0);
    creates_typed(&one, first, b"stuck", b"driver::Message");
    creates_typed(&two, second, b"free", b"driver::Message");
    let mut stuck = peer(&["sub", "62", "stuck", "1000", "30"]);
    stuck.until("matched");
    std::thread::sleep(Duration::from_millis(500));
    stuck.signal("STOP");
    let in_time = |client: &UdpSocket, object, datagram| {
        let start = Instant::now();
        assert_eq!(code(client, object, datagram), OK);
        assert!(start.elapsed() < stated, "{:?}", start.elapsed());
    };
    for (client, session) in [(&one, first), (&two, second)] {
        for _ in 0..100 {
            in_time(client, WRITER, Datagram::new(session, 0).write_data(WRITER, &[7; 1000]));
        }
    }
    in_time(&one, WRITER, Datagram::new(first, 0).delete(WRITER));
    in_time(&two, WRITER, Datagram::new(second, 0).write_data(WRITER, b"x"));
    in_time(&one, WRITER, Datagram::new(first, 0).create(WRITER, wire::DATA_WRITER, 2, &[]));
    in_time(&one, WRITER, Datagram::new(first, 0).write_data(WRITER, b"x"));
    let start = Instant::now();
    let (_, text) = host.end("-TERM");
    // DDS did wait.
    assert!(Duration::from_millis(700) < start.elapsed(), "{:?}", start.elapsed());
    assert!(text.contains(&format!("info: session {first}: made 5 entities, deleted 5;")), "{text}");
    assert!(text.contains("\n0 entities left in DDS\n"), "{text}");
}

#[test]
#[ignore = "host/check-dds runs it"]
fn what_dds_refuses_is_answered_as_failed() {
    let host = host("54", &["--dds-wait-ms", "1000"]);
    let client = host.client();
    let session = open(&client).0;
    creates_all(&client, session, b"fine");
    for domain in [179, 65_535] {
        assert_eq!(create(&client, session, 5, wire::PARTICIPANT, domain, &[]), ERR_INVALID_DATA);
    }
    for name in [&b""[..], b"with-a-dash", b"9", "Glöckchen".as_bytes(), b"nul\0inside"] {
        assert_eq!(create(&client, session, 5, wire::TOPIC, 1, &strings(name, b"t")), ERR_INVALID_DATA, "{name:?}");
    }
    assert_eq!(code(&client, READER, Datagram::new(session, 0).write_data(READER, b"x")), ERR_INVALID_DATA);
    assert_eq!(code(&client, WRITER, Datagram::new(session, 0).read_data(WRITER)), ERR_INVALID_DATA);
    assert_eq!(code(&client, 9, Datagram::new(session, 0).write_data(9, b"x")), ERR_UNKNOWN_REF);
    // The greatest domain there is, and an empty sample.
    assert_eq!(create(&client, session, 5, wire::PARTICIPANT, 178, &[]), OK);
    assert_eq!(code(&client, WRITER, Datagram::new(session, 0).write_data(WRITER, b"")), OK);
    assert_eq!(read(&client, session), Some(vec![]));
    let (_, text) = host.end("-TERM");
    assert!(text.contains("warn: session 1: create_topic failed: Bad Parameter, the topic \"with-a-dash\""), "{text}");
    assert!(text.contains("warn: session 1: create_participant failed: there is no domain 233"), "{text}");
}

// Each domain has threads and sockets of its own in DDS. Two clients take all that there may be; a third one is served in one of them, and
// is refused another.
#[test]
#[ignore = "host/check-dds runs it"]
fn so_many_domains_are_in_use_at_most() {
    let host = host("0", &["--dds-wait-ms", "2000"]);
    let clients = [host.client(), host.client()];
    let sessions = [0, 1].map(|at| open(&clients[at]).0);
    // Those of the other tests are left out.
    for (at, domain) in (0..34).chain(71..101).enumerate() {
        let (client, session) = (&clients[at % 2], sessions[at % 2]);
        assert_eq!(create(client, session, at as u16, wire::PARTICIPANT, domain, &[]), OK);
    }
    let third = host.client();
    let session = open(&third).0;
    assert_eq!(create(&third, session, 1, wire::PARTICIPANT, 70, &[]), ERR_INVALID_DATA);
    creates_all(&third, session, b"on");
    assert_eq!(code(&third, WRITER, Datagram::new(session, 0).write_data(WRITER, b"x")), OK);
    assert_eq!(read(&third, session), Some(b"x".to_vec()));
    let (code, text) = host.end("-TERM");
    assert_eq!(code, Some(0));
    assert!(
        text.contains("create_participant failed: 64 domains are in use, and domain 70 isn't one of them"),
        "{text}"
    );
    assert!(text.contains("\n0 entities left in DDS\n"), "{text}");
}

#[test]
#[ignore = "host/check-dds runs it"]
fn a_reader_keeps_the_last_samples() {
    for (flags, kept) in [(&[][..], 64), (&["--history", "3"], 3), (&["--reliability", "best-effort"], 64)] {
        let host = host("56", flags);
        let client = host.client();
        let session = open(&client).0;
        creates_all(&client, session, b"last");
        for number in 0..70 {
            assert_eq!(code(&client, WRITER, Datagram::new(session, 0).write_data(WRITER, &[number])), OK);
        }
        let got: Vec<u8> = std::iter::from_fn(|| read(&client, session)).map(|sample| sample[0]).collect();
        assert_eq!(got, (70 - kept..70).collect::<Vec<u8>>());
    }
}

// DDS matches no reliable reader with a writer of best effort.
#[test]
#[ignore = "host/check-dds runs it"]
fn the_flag_decides_whether_writers_are_reliable() {
    for (kind, matches) in [("reliable", true), ("best-effort", false)] {
        let host = host("58", &["--reliability", kind]);
        let mut sub = peer(&["sub", "58", "quality", "5", "3"]);
        sub.until("ready");
        all_ok(writes(&host, &["--topic", "quality", "--messages", "5"]));
        let (_, lines) = sub.ended();
        assert_eq!(lines.contains(&"matched".into()), matches, "{kind}: {lines:?}");
        assert_eq!(lines.contains(&"seen 5".into()), matches, "{kind}: {lines:?}");
    }
}
