//! The independent writer by itself: the papers' message, and messages that the
//! small DER writer of `testing` makes of a tree.

use crate::limits::MESSAGE_LIMIT;
use crate::testing::der::{parse, Node};
use crate::testing::messages::{self, status_info};
use crate::testing::writing::{order, sample, Call, Elements, KINDS};
use crate::testing::{der::show, papers};
use crate::{Given, Outgoing};

fn written(call: &Call) -> Vec<u8> {
    let mut buffer = vec![0; MESSAGE_LIMIT];
    let size = call.independently(&mut buffer).expect("all fits");
    buffer.truncate(size);
    buffer
}

#[test]
fn sample_message() {
    assert_eq!(show(&written(&sample())), show(&papers::sample()));
}

/// The one element of these bytes.
fn node(bytes: &[u8]) -> Node {
    parse(bytes).expect("it is DER").remove(0)
}

fn header(outgoing: &Outgoing, given: &Given) -> Node {
    let octets = |bytes: Option<&[u8]>| bytes.map(Node::octets);
    let time = |bytes: &[u8]| Node::primitive(0x18, bytes);
    let recip_nonce = outgoing.recip_nonce.map(|nonce| Node::octets(&nonce.0));
    let fields = [
        given.message_time.map(time),
        given.protection_alg.map(node),
        octets(given.sender_kid),
        octets(given.recip_kid),
        Some(Node::octets(&outgoing.id.0)),
        Some(Node::octets(&outgoing.sender_nonce.0)),
        recip_nonce,
        given.free_text.map(node),
        given.general_info.map(node),
    ];
    let version = Node::integer(given.version.into());
    let mut parts = vec![version, node(given.sender), node(given.recipient)];
    for (number, field) in (0..).zip(fields) {
        parts.extend(field.map(|field| Node::explicit(number, field)));
    }
    Node::sequence(parts)
}

/// PKIFailureInfo, bit by bit.
fn fail_info(bit: u8) -> Node {
    let mut bytes = vec![0; usize::from(bit) / 8 + 1];
    bytes[usize::from(bit) / 8] = 1 << (7 - bit % 8);
    Node::bits(7 - bit % 8, &bytes)
}

fn body(outgoing: &Outgoing, given: &Given) -> Node {
    let number = || Node::integer(outgoing.number.expect("a certReqId").into());
    let status = || status_info(i64::from(outgoing.status.expect("a status") as i32), false);
    let inside = match outgoing.kind {
        4 => node(given.request.expect("a request")),
        0 | 2 | 7 => Node::sequence(vec![node(given.request.expect("a request"))]),
        1 | 3 | 8 => {
            let mut response = vec![number(), status()];
            let certificate = given.certificate.map(node);
            let pair = certificate.map(|plain| Node::sequence(vec![Node::explicit(0, plain)]));
            response.extend(pair);
            messages::responses(false, vec![Node::sequence(response)])
        }
        23 => {
            let mut info = status();
            let parts = info.children_mut().expect("a SEQUENCE");
            parts.extend(outgoing.failure.map(fail_info));
            Node::sequence(vec![info])
        }
        24 => {
            let hash = Node::octets(&outgoing.hash.expect("a hash").0);
            let mut entry = vec![hash, number()];
            entry.extend((outgoing.status != Some(0)).then(status));
            Node::sequence(vec![Node::sequence(entry)])
        }
        _ => Node::null(),
    };
    Node::explicit(outgoing.kind, inside)
}

/// The message as a tree.
fn tree(outgoing: &Outgoing, given: &Given) -> Node {
    let protection = given
        .protection
        .map(|content| Node::primitive(0x03, content));
    let protection = protection.map(|bits| Node::explicit(0, bits));
    messages::message(
        header(outgoing, given),
        body(outgoing, given),
        protection.into_iter().collect(),
    )
}

fn compare(outgoing: &Outgoing, given: &Given) {
    let bytes = written(&Call::new(outgoing, given));
    let expected = tree(outgoing, given).encode();
    assert_eq!(show(&bytes), show(&expected), "{outgoing:?}");
}

#[test]
fn as_the_tree_is_written() {
    let elements = Elements::new();
    for kind in KINDS {
        let outgoing = order(kind);
        compare(&outgoing, &elements.least(&outgoing));
        compare(&outgoing, &elements.all(&outgoing));
        for status in (-300..300).chain([i32::MIN, i32::MAX, -40_000, 40_000, 9_000_000]) {
            let changed = Outgoing {
                status: outgoing.status.map(|_| status as u32),
                number: outgoing.number.map(|_| status.wrapping_neg()),
                ..outgoing
            };
            compare(&changed, &elements.all(&changed));
        }
    }
    for bit in 0..u8::MAX {
        let outgoing = Outgoing {
            failure: Some(bit),
            ..order(23)
        };
        compare(&outgoing, &elements.least(&outgoing));
    }
}
