//! A message that is written without protection is the ProtectedPart in DER (RFC
//! 9810, 5.1.3) of the same one with protection: the SEQUENCE of header and body.

use super::tally::Tally;
use duskstall_host::independent::writer::Part;
use duskstall_host::testing::der::{show, Node};
use duskstall_host::testing::papers;
use duskstall_host::testing::received::Received;
use duskstall_host::testing::writing::{order, sample, Call, Elements, KINDS};
use duskstall_host::{write_protected, Given, MESSAGE_LIMIT};
use std::collections::BTreeSet;

/// The same call without protection.
fn plain(call: &Call) -> Call {
    let mut call = call.clone();
    call.set(Part::Protection, [0, 0]);
    call
}

/// The message is what was written by the call, with protection.
pub fn first_is_protected_part(call: &Call, message: Vec<u8>) {
    let mut buffer = vec![0; MESSAGE_LIMIT];
    let size = plain(call).by_library(&mut buffer) as usize;
    let message = Received::read(message);
    assert_eq!(show(&buffer[..size]), show(&message.protected_part()));
}

/// The content of W's is 131 bytes long.
#[test]
fn protected_part_of_the_sample() {
    let first = Tally::default().written(&plain(&sample()));
    let expected = [&[0x30, 0x81, 0x83], &papers::sample()[3..][..131]].concat();
    assert_eq!(show(&first), show(&expected));
}

/// Every kind, with a header that grows, so that the SEQUENCE takes each form of a
/// length.
#[test]
fn protect_is_handed_the_protected_part() {
    let elements = Elements::new();
    let mut heads = BTreeSet::new();
    for outgoing in KINDS.map(order) {
        for len in 0..300 {
            let kid = vec![0xC2; len];
            let given = Given {
                protection_alg: Some(&elements.algorithm),
                sender_kid: Some(&kid),
                ..elements.least(&outgoing)
            };
            let mut handed = Vec::new();
            let protect = |part: &[u8]| {
                handed = part.to_vec();
                vec![0x5A; len]
            };
            let mut buffer = vec![0; MESSAGE_LIMIT];
            let size = write_protected(&outgoing, &given, &mut buffer, protect);
            buffer.truncate(size.expect("all of it fits"));
            let message = Received::read(buffer);
            assert_eq!(show(&handed), show(&message.protected_part()));
            let protection = Node::explicit(0, Node::bits(0, &vec![0x5A; len]));
            assert_eq!(
                message.part(message.reading.protection),
                protection.encode()
            );
            heads.insert(handed.len() - message.reading.protected_len);
        }
    }
    assert_eq!(heads, BTreeSet::from([2, 3, 4]));
}

/// Room for the message without protection, and for each byte more but the last.
#[test]
fn refused_with_the_buffer_as_before() {
    let (outgoing, elements) = (order(24), Elements::new());
    let given = Given {
        protection_alg: Some(&elements.algorithm),
        ..elements.least(&outgoing)
    };
    let protect = |_: &[u8]| vec![0x5A; 20];
    let mut longest = vec![0; MESSAGE_LIMIT];
    let size = write_protected(&outgoing, &given, &mut longest, protect).expect("it fits");
    let [mut handed, mut not_handed] = [0, 0];
    for room in 0..size {
        let mut buffer = vec![0xEE; room];
        let mut called = false;
        let refused = write_protected(&outgoing, &given, &mut buffer, |part| {
            called = true;
            protect(part)
        });
        assert_eq!(refused.map_err(|refusal| refusal.number), Err(35));
        assert_eq!(buffer, vec![0xEE; room]);
        *(if called { &mut handed } else { &mut not_handed }) += 1;
    }
    // [0], BIT STRING and its 21 bytes.
    assert_eq!((handed, handed + not_handed), (25, size));
}
