//! The client against hosts that lose replies, reply wrongly, or aren't there.

mod common;

use common::{driver, host, told};
use std::ffi::OsStr;
use std::net::UdpSocket;
use std::os::unix::ffi::OsStrExt;

#[test]
fn messages_come_back() {
    let address = host(|_, reply| Some(reply.to_vec()));
    let (code, out, _) = told(&driver(&["--host", &address, "--messages", "500", "--size", "65497"]));
    assert_eq!(code, Some(0));
    assert!(
        out.contains("500 messages of 65497 bytes written and read back, none missing or wrong\n0 requests"),
        "{out}"
    );
    let (code, out, _) = told(&driver(&["--host", &address, "--messages", "2", "--rate", "20", "--topic", "t"]));
    assert_eq!((code, out.matches("wrote and read back '0000000").count()), (Some(0), 2), "{out}");
}

#[test]
fn lost_replies_are_asked_for_again() {
    let address = host(|count, reply| (count % 4 != 0).then(|| reply.to_vec()));
    let (code, out, error) = told(&driver(&["--host", &address, "--messages", "8"]));
    assert_eq!(code, Some(0), "{error}");
    assert!(out.contains("8 messages of 24 bytes written and read back") && !out.contains("\n0 requests"), "{out}");
}

#[test]
fn wrong_replies_end_it() {
    // Replies 1 to 5 are those to the CREATEs, 6 is the first write's and 7 the first read's.
    let failed = host(|count, reply| Some(if count == 6 { [&reply[..10], &[2]].concat() } else { reply.to_vec() }));
    let (code, _, error) = told(&driver(&["--host", &failed]));
    assert_eq!((code, error.trim_end()), (Some(1), "driver: WRITE_DATA was answered by status 2, ERR_INVALID_DATA"));
    let closed = host(|count, reply| Some(if count == 6 { [&reply[..10], &[3]].concat() } else { reply.to_vec() }));
    let (code, _, error) = told(&driver(&["--host", &closed]));
    let wanted = "driver: WRITE_DATA was answered by status 3, ERR_INCOMPATIBLE: these are quiet hours, in which the agent lets \
                  nothing be written";
    assert_eq!((code, error.trim_end()), (Some(1), wanted));
    let other = host(|count, reply| Some(if count == 7 { [&reply[..33], b"!"].concat() } else { reply.to_vec() }));
    let (code, _, error) = told(&driver(&["--host", &other]));
    assert_eq!(code, Some(1));
    assert_eq!(error.trim_end(), "driver: another sample was read for message 1: '00000001jklmnopqrstuvwx!'");
    let short = host(|_, reply| Some(reply[..7].to_vec()));
    let (code, _, error) = told(&driver(&["--host", &short]));
    assert_eq!(code, Some(1));
    assert!(error.starts_with("driver: the reply to CREATE_CLIENT isn't a reply"), "{error}");
}

// The name goes as it is typed, and one that isn't UTF-8 goes nowhere.
#[test]
fn a_topic_name_is_text() {
    let address = host(|_, reply| Some(reply.to_vec()));
    let (code, out, error) = told(&driver(&["--host", &address, "--topic", "Küche-\u{10FFFF}"]));
    assert_eq!(code, Some(0), "{error}");
    assert!(out.contains("topic 2 'Küche-\u{10FFFF}'"), "{out}");
    for words in
        [vec![OsStr::new("--topic"), OsStr::from_bytes(b"K\xFCche")], vec![OsStr::from_bytes(b"--topic=\xED\xA0\x80")]]
    {
        let (code, _, error) = told(&driver(&words));
        assert_eq!(code, Some(2), "{error}");
        assert!(error.contains("\\x") && error.contains(" isn't UTF-8\n"), "{error}");
    }
}

#[test]
fn no_host_and_wrong_flags() {
    let nobody = UdpSocket::bind("127.0.0.1:0").unwrap().local_addr().unwrap().to_string();
    let (code, _, error) = told(&driver(&["--host", &nobody]));
    assert_eq!(
        (code, error.trim_end()),
        (Some(1), "driver: no reply to CREATE_CLIENT within 3 s: is the host running?")
    );
    assert_eq!(told(&driver(&["--size", "3"])).0, Some(2));
    assert_eq!(told(&driver(&["--help"])).0, Some(0));
}
