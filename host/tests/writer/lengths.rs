//! The lengths at which an element's length takes a byte more, in every element
//! that the writer puts around something; and the limit of a message.

use super::tally::Tally;
use duskstall_host::independent::writer::{Part, Unwritten, PARTS};
use duskstall_host::testing::der::{parse, Node};
use duskstall_host::testing::writing::{order, Call, KINDS};
use duskstall_host::{Given, MESSAGE_LIMIT};
use std::collections::{BTreeMap, BTreeSet};

/// On both sides of each form: xx, 81 xx, 82 xx xx.
const TURNS: [usize; 4] = [127, 128, 255, 256];

/// A part with so many bytes in its innermost element.
fn part_of(part: Part, kind: u8, len: usize) -> Vec<u8> {
    let bytes = vec![0x00; len];
    let octets = Node::octets(&bytes);
    let typed = |inside| Node::sequence(vec![Node::oid(&[0x2A]), inside]);
    let element = match part {
        Part::MessageTime | Part::SenderKid | Part::RecipKid => return bytes,
        Part::Protection => return [&[0], &bytes[..]].concat(),
        Part::Sender | Part::Recipient => Node::primitive(0x81, &bytes),
        Part::ProtectionAlg => typed(octets),
        Part::FreeText => Node::sequence(vec![Node::primitive(0x0C, &bytes)]),
        Part::GeneralInfo => Node::sequence(vec![typed(octets)]),
        Part::Request if kind == 4 => octets,
        Part::Request => Node::sequence(vec![Node::sequence(vec![Node::integer(0)]), octets]),
        Part::Certificate => Node::sequence(vec![octets]),
    };
    element.encode()
}

/// How many elements the writer puts around it, and how many it is itself.
fn elements_of(part: Part, kind: u8) -> usize {
    match part {
        // In message and header.
        Part::Sender | Part::Recipient => 2 + 1,
        // In message, header, tag and string.
        Part::MessageTime | Part::SenderKid | Part::RecipKid => 4,
        // In message, header and tag.
        Part::ProtectionAlg | Part::FreeText => 3 + 2,
        Part::GeneralInfo => 3 + 3,
        // In message, tag and string.
        Part::Protection => 3,
        // In message, body and, but for p10cr, a SEQUENCE.
        Part::Request if kind == 4 => 2 + 1,
        Part::Request => 3 + 2,
        // In message, body, content, responses, response, key pair and choice.
        Part::Certificate => 7 + 2,
    }
}

/// Whether an order of this kind, as drawn here, has the part.
fn goes_with(part: Part, kind: u8) -> bool {
    match part {
        Part::Request => matches!(kind, 0 | 2 | 4 | 7),
        Part::Certificate => matches!(kind, 1 | 3 | 8),
        _ => true,
    }
}

/// The shortest message of this kind.
fn least(kind: u8) -> Call {
    let name = part_of(Part::Sender, kind, 0);
    let mut call = Call::new(&order(kind), &Given::new(2, &name, &name));
    for part in [Part::Request, Part::Certificate] {
        if goes_with(part, kind) {
            put(&mut call, part, &part_of(part, kind, 0));
        }
    }
    call
}

fn put(call: &mut Call, part: Part, bytes: &[u8]) {
    call.set(part, [call.source.len() as u64, bytes.len() as u64]);
    call.source.extend_from_slice(bytes);
}

fn tree(message: &[u8]) -> Node {
    parse(message).expect("it is DER").remove(0)
}

/// The content lengths of all elements, by the numbers of the children that lead
/// there.
fn note(node: &Node, path: &[usize], lengths: &mut BTreeMap<Vec<usize>, BTreeSet<usize>>) {
    let met = lengths.entry(path.to_vec()).or_default();
    met.insert(node.content_len());
    for (number, child) in node.children().iter().enumerate() {
        note(child, &[path, &[number]].concat(), lengths);
    }
}

/// A part grows by a byte each time, and another by up to two, so that no length
/// is passed over where two grow at once.
fn grow(part: Part, kind: u8, tally: &mut Tally) {
    let shifted = match part {
        Part::SenderKid => Part::RecipKid,
        _ => Part::SenderKid,
    };
    let mut lengths = BTreeMap::new();
    for len in 0..300 {
        for shift in 0..=2 {
            let mut call = least(kind);
            put(&mut call, shifted, &part_of(shifted, kind, shift));
            put(&mut call, part, &part_of(part, kind, len));
            note(&tree(&tally.written(&call)), &[], &mut lengths);
        }
    }
    let growing: Vec<_> = lengths.values().filter(|met| met.len() > 10).collect();
    assert_eq!(growing.len(), elements_of(part, kind), "{part:?}, {kind}");
    for met in growing {
        assert!(
            TURNS.iter().all(|turn| met.contains(turn)),
            "{part:?}, {kind}"
        );
    }
}

#[test]
fn each_element_at_each_turn() {
    let mut tally = Tally::default();
    for kind in KINDS {
        for part in PARTS.into_iter().filter(|part| goes_with(*part, kind)) {
            grow(part, kind, &mut tally);
        }
    }
    tally.report("a part that grows");
}

/// The message with the part grown until the element at this place in the tree
/// has so much content.
fn grown_to(call: &Call, part: Part, child: usize, target: usize) -> Call {
    let content = |call: &Call| {
        let mut buffer = vec![0; MESSAGE_LIMIT];
        let size = call.by_library(&mut buffer) as usize;
        tree(&buffer[..size]).children()[child].content_len()
    };
    let grown = |len| {
        let mut grown = call.clone();
        put(&mut grown, part, &part_of(part, call.outgoing[0], len));
        grown
    };
    let mut all = (0..300).map(grown);
    let found = all.find(|call| content(call) == target);
    found.unwrap_or_else(|| panic!("{part:?} does not lead to {target}"))
}

/// Header, body and the protection's BIT STRING side by side, each at each turn at
/// the same time.
#[test]
fn header_body_and_protection_at_each_turn_at_once() {
    let mut tally = Tally::default();
    for (kind, part) in [
        (0, Part::Request),
        (4, Part::Request),
        (8, Part::Certificate),
    ] {
        for header in TURNS {
            let call = grown_to(&least(kind), Part::Sender, 0, header);
            for body in TURNS {
                let call = grown_to(&call, part, 1, body);
                for protection in TURNS {
                    let mut call = call.clone();
                    let bits = part_of(Part::Protection, kind, protection - 1);
                    put(&mut call, Part::Protection, &bits);
                    let message = tree(&tally.written(&call));
                    let contents = [0, 1].map(|child| message.children()[child].content_len());
                    let bits = message.children()[2].children()[0].content_len();
                    assert_eq!((contents, bits), ([header, body], protection));
                }
            }
        }
    }
}

/// Every part that the message may have is there, each with its innermost content
/// at a turn: all at the same one, and at turns that go round in steps.
#[test]
fn all_parts_at_a_turn_at_once() {
    let mut tally = Tally::default();
    for kind in KINDS {
        for (first, step) in (0..TURNS.len()).flat_map(|f| (0..TURNS.len()).map(move |s| (f, s))) {
            let mut call = least(kind);
            let parts = PARTS.into_iter().filter(|part| goes_with(*part, kind));
            for (at, part) in parts.enumerate() {
                let turn = TURNS[(first + at * step) % TURNS.len()];
                // A BIT STRING's content has a byte before the bits.
                let len = turn - usize::from(part == Part::Protection);
                put(&mut call, part, &part_of(part, kind, len));
            }
            tally.written(&call);
        }
    }
    tally.report("all parts at a turn");
}

/// The same call with the part grown so that the message has this size.
fn sized(kind: u8, part: Part, size: usize) -> Call {
    let grown = |len| {
        let mut call = least(kind);
        put(&mut call, part, &part_of(part, kind, len));
        call
    };
    // Every length around it has its longest form by then.
    let (near, _) = grown(MESSAGE_LIMIT / 2).size_and_misfit();
    let call = grown(MESSAGE_LIMIT / 2 + size - near);
    assert_eq!(call.size_and_misfit(), (size, None), "{part:?}");
    call
}

/// 16,384 bytes are written where there is room, and one more is 34, whatever the
/// room.
#[test]
fn limit_of_a_message() {
    let mut tally = Tally::default();
    for kind in KINDS {
        for part in PARTS.into_iter().filter(|part| goes_with(*part, kind)) {
            let longest = sized(kind, part, MESSAGE_LIMIT);
            let message = tally.written(&longest);
            assert_eq!(message.len(), MESSAGE_LIMIT);
            assert_eq!(message[..4], [0x30, 0x82, 0x3F, 0xFC]);
            let short = tally.compare(&longest, MESSAGE_LIMIT - 1);
            assert_eq!(short, Err(Unwritten::BufferTooShort));
            let longer = sized(kind, part, MESSAGE_LIMIT + 1);
            for room in [0, MESSAGE_LIMIT, MESSAGE_LIMIT + 1, 2 * MESSAGE_LIMIT] {
                assert_eq!(tally.compare(&longer, room), Err(Unwritten::OverLimit));
            }
        }
    }
    tally.report("messages at the limit");
}

/// Lengths on both sides of what two bytes of a length can say, and sums that no
/// number of bytes has: over the limit all the same.
#[test]
fn far_over_the_limit() {
    let mut tally = Tally::default();
    let name = [0x81, 0x00];
    let mut call = Call::new(&order(19), &Given::new(2, &name, &name));
    call.source.resize(1 << 17, 0);
    for part in [Part::MessageTime, Part::SenderKid, Part::Protection] {
        for len in [65_535, 65_536, 65_537, 131_070] {
            let mut call = call.clone();
            call.set(part, [1, len]);
            assert_eq!(tally.compare(&call, 100), Err(Unwritten::OverLimit));
        }
    }
    for part in PARTS {
        call.set(part, [1, u64::MAX]);
    }
    assert_eq!(tally.compare(&call, 100), Err(Unwritten::OverLimit));
}
