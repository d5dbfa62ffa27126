//! The client sends what is too long for a datagram in parts (document 02, W6), over ways that lose, repeat and reorder them. The
//! program itself compares every message that it reads back.

mod common;

use common::{behind, driver, host, told};
use std::sync::atomic::{AtomicUsize, Ordering};
use std::sync::Arc;

// One part of a message of many: a FRAGMENT of more than three.
fn is_part(datagram: &[u8]) -> bool {
    matches!(datagram, [_, _, _, _, 0x0F, _, _, _, _, _, total, 0, ..] if *total > 3)
}

#[test]
fn long_messages_go_in_parts_and_come_back_whole() {
    let (parts, longest) = (Arc::new(AtomicUsize::new(0)), Arc::new(AtomicUsize::new(0)));
    let (count, most) = (parts.clone(), longest.clone());
    let way = move |datagram: &[u8]| {
        count.fetch_add(usize::from(is_part(datagram)), Ordering::Relaxed);
        most.fetch_max(datagram.len(), Ordering::Relaxed);
        vec![datagram.to_vec()]
    };
    let address = behind(way, |_, reply| Some(reply.to_vec()));
    let words = ["--host", &address, "--messages", "20", "--size", "32762", "--datagram", "600"];
    let (code, out, error) = told(&driver(&words));
    assert_eq!(code, Some(0), "{error}");
    assert!(
        out.contains("20 messages of 32762 bytes written and read back, none missing or wrong\n0 requests"),
        "{out}"
    );
    assert_eq!((parts.load(Ordering::Relaxed), longest.load(Ordering::Relaxed)), (20 * 64, 524));
}

// Every seventh part is lost, every third comes twice, and five at a time come in the opposite order.
#[test]
fn parts_may_get_lost_come_twice_and_in_any_order() {
    let (mut count, mut waiting) = (0, Vec::new());
    let way = move |datagram: &[u8]| {
        if !is_part(datagram) {
            let mut all = std::mem::take(&mut waiting);
            all.push(datagram.to_vec());
            return all;
        }
        count += 1;
        if count % 7 != 0 {
            waiting.push(datagram.to_vec());
        }
        if count % 3 == 0 {
            waiting.push(datagram.to_vec());
        }
        if waiting.len() < 5 {
            return Vec::new();
        }
        waiting.drain(..).rev().collect()
    };
    let address = behind(way, |_, reply| Some(reply.to_vec()));
    for (size, datagram) in [("1014", "128"), ("5000", "300"), ("20000", "65507"), ("20000", "1500")] {
        let words = ["--host", &address, "--messages", "6", "--size", size, "--datagram", datagram];
        let (code, out, error) = told(&driver(&words));
        assert_eq!(code, Some(0), "{size} in {datagram}: {error}");
        assert!(
            out.contains(&format!("6 messages of {size} bytes written and read back, none missing or wrong")),
            "{out}"
        );
    }
}

// The reply to the first write is lost: the message is written twice, whole both times.
#[test]
fn a_message_that_is_sent_again_comes_twice_and_whole() {
    let address = host(|count, reply| (count != 6).then(|| reply.to_vec()));
    let words = ["--host", &address, "--messages", "3", "--size", "3000", "--datagram", "512", "--stream", "0"];
    let (code, out, error) = told(&driver(&words));
    assert_eq!(code, Some(0), "{error}");
    assert!(out.contains("3 messages of 3000 bytes written and read back, none missing or wrong"), "{out}");
    assert!(out.contains("1 requests sent again") && out.contains("1 samples came twice"), "{out}");
}
