//! Every field of a reading, at the place where the writer put it.

use super::{assert_fault, clean};
use crate::independent::read;
use crate::limits::MESSAGE_LIMIT;
use crate::testing::der::Node;
use crate::testing::messages::*;
use crate::testing::papers::sample;
use crate::testing::random::{self, Random};
use crate::types::{Reading, Span};

fn span(start: usize, len: usize) -> Span {
    Span { start, len }
}

#[test]
fn sample_is_read_field_by_field() {
    let expected = Reading {
        kind: 24,
        version: 2,
        entries: 1,
        header: span(3, 88),
        body: span(91, 43),
        protection: span(134, 6),
        sender: span(8, 4),
        recipient: span(12, 4),
        protection_alg: span(18, 13),
        transaction_id: span(35, 16),
        sender_nonce: span(55, 16),
        recip_nonce: span(75, 16),
        cert_hash: span(99, 32),
        protected_len: 131,
        ..Reading::default()
    };
    assert_eq!(sample().len(), 140);
    assert_eq!(read(&sample()), Ok(expected));
}

#[test]
fn small_integers_are_read_with_their_sign() {
    for value in [
        0, 1, 127, 128, -1, -128, -129, 32767, -32769, 8_388_608, -8_388_609,
    ] {
        let pvno = Node::sequence(vec![Node::integer(value), name(), name()]);
        let reading = clean(&message(pvno, body(19, 0, false), vec![]));
        assert_eq!(reading.version, value as u32);
    }
    for value in [i64::from(i32::MIN), i64::from(i32::MAX)] {
        let reading = clean(&bare(Node::explicit(
            2,
            Node::sequence(vec![request_message(value, true)]),
        )));
        assert_eq!(reading.number, value as u32);
    }
}

/// The whole element at a path, as the writer places it.
fn element(message: &Node, path: &[usize]) -> Span {
    let [start, _, end] = message.place(path).expect("the path leads to an element");
    span(start, end - start)
}

/// The content of the element at a path, as the writer places it.
fn content(message: &Node, path: &[usize]) -> Span {
    let [_, start, end] = message.place(path).expect("the path leads to an element");
    span(start, end - start)
}

#[test]
fn every_header_field_is_found() {
    let message = message(
        full_header(),
        body(19, 0, false),
        vec![protection(), extra_certs(3)],
    );
    let expected = Reading {
        kind: 19,
        version: 2,
        header: element(&message, &[0]),
        body: element(&message, &[1]),
        protection: element(&message, &[2]),
        extra_certs: element(&message, &[3]),
        sender: element(&message, &[0, 1]),
        recipient: element(&message, &[0, 2]),
        message_time: content(&message, &[0, 3, 0]),
        protection_alg: element(&message, &[0, 4, 0]),
        sender_kid: content(&message, &[0, 5, 0]),
        recip_kid: content(&message, &[0, 6, 0]),
        transaction_id: content(&message, &[0, 7, 0]),
        sender_nonce: content(&message, &[0, 8, 0]),
        recip_nonce: content(&message, &[0, 9, 0]),
        free_text: element(&message, &[0, 10, 0]),
        general_info: element(&message, &[0, 11, 0]),
        protected_len: element(&message, &[0]).len + element(&message, &[1]).len,
        ..Reading::default()
    };
    assert_eq!(clean(&message), expected);
}

/// What a message with the shortest header says beside its body's contents.
fn frame(message: &Node, kind: u8, entries: usize) -> Reading {
    Reading {
        kind,
        version: 2,
        entries,
        header: span(element(message, &[0]).start, 13),
        body: element(message, &[1]),
        sender: element(message, &[0, 1]),
        recipient: element(message, &[0, 2]),
        protected_len: 13 + element(message, &[1]).len,
        ..Reading::default()
    }
}

#[test]
fn requests_are_found() {
    for kind in [0, 2, 7] {
        let message = bare(body(kind, 1, true));
        let expected = Reading {
            number: u32::MAX,
            request: element(&message, &[1, 0, 0]),
            ..frame(&message, kind, 1)
        };
        assert_eq!(clean(&message), expected);
        let message = bare(body(kind, 3, true));
        assert_eq!(clean(&message), frame(&message, kind, 3));
        let none = bare(body(kind, 0, true));
        let [.., end] = none.place(&[1, 0]).unwrap();
        assert_fault(&none.encode(), end, 5);
    }
}

#[test]
fn responses_are_found() {
    for kind in [1, 3, 8] {
        let message = bare(body(kind, 1, true));
        let expected = Reading {
            ca_pubs: element(&message, &[1, 0, 0, 0]),
            number: -2i32 as u32,
            has_status: true,
            status: 1,
            certificate: element(&message, &[1, 0, 1, 0, 2, 0, 0]),
            ..frame(&message, kind, 1)
        };
        assert_eq!(clean(&message), expected);
        for entries in [0, 2] {
            let message = bare(body(kind, entries, true));
            let expected = Reading {
                ca_pubs: element(&message, &[1, 0, 0, 0]),
                ..frame(&message, kind, entries)
            };
            assert_eq!(clean(&message), expected);
        }
        let parts = vec![Node::integer(0), status_info(0, false), key_pair(1, true)];
        let message = bare(Node::explicit(
            kind,
            responses(false, vec![Node::sequence(parts)]),
        ));
        let expected = Reading {
            has_status: true,
            ..frame(&message, kind, 1)
        };
        assert_eq!(clean(&message), expected);
    }
}

#[test]
fn certificate_statuses_are_found() {
    let message = bare(body(24, 1, true));
    let expected = Reading {
        number: 0x7FFF_FFFF,
        has_status: true,
        status: 2,
        cert_hash: content(&message, &[1, 0, 0, 0]),
        hash_alg: element(&message, &[1, 0, 0, 3, 0]),
        ..frame(&message, 24, 1)
    };
    assert_eq!(clean(&message), expected);
    for entries in [0, 2] {
        let message = bare(body(24, entries, true));
        assert_eq!(clean(&message), frame(&message, 24, entries));
    }
}

#[test]
fn other_bodies_are_found() {
    for kind in (0..=LAST_KIND).filter(|kind| !KINDS_WITH_ENTRIES.contains(kind)) {
        let message = bare(body(kind, 0, true));
        let expected = Reading {
            request: if kind == 4 {
                element(&message, &[1, 0])
            } else {
                Span::default()
            },
            has_status: kind == 23,
            status: if kind == 23 { 2 } else { 0 },
            ..frame(&message, kind, 0)
        };
        assert_eq!(clean(&message), expected);
    }
    assert_fault(&bare(Node::explicit(27, Node::null())).encode(), 15, 5);
    // p10cr's one element may be any.
    let message = bare(Node::explicit(4, Node::null()));
    assert_eq!(clean(&message).request, element(&message, &[1, 0]));
}

#[test]
fn bases_and_whole_random_messages_are_clean() {
    for base in bases() {
        clean(&base);
    }
    let mut random = Random::new(1);
    for _ in 0..20_000 {
        let message = random::message(&mut random);
        if message.encoded_len() <= MESSAGE_LIMIT {
            clean(&message);
        }
    }
}
