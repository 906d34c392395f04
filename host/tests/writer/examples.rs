//! The papers' examples, and calls of wrong lengths.

use super::tally::Tally;
use duskstall_host::independent::writer::{Misfit, Part, Unwritten, Why, PARTS};
use duskstall_host::library::{self, BAD_LENGTH, GIVEN};
use duskstall_host::testing::der::{hex, nest, show, Node};
use duskstall_host::testing::messages::{name, request_message};
use duskstall_host::testing::papers;
use duskstall_host::testing::received::Received;
use duskstall_host::testing::writing::{order, sample, Call, Elements, KINDS};
use duskstall_host::{Given, Outgoing, MESSAGE_LIMIT, OUTGOING_BYTES};

fn written(outgoing: &Outgoing, given: &Given) -> Received {
    let message = Tally::default().written(&Call::new(outgoing, given));
    Received::read(message)
}

/// The body that this order becomes.
fn body(outgoing: &Outgoing, given: &Given) -> String {
    let message = written(outgoing, given);
    show(message.part(message.reading.body))
}

#[test]
fn sample_byte_for_byte() {
    let message = Tally::default().written(&sample());
    assert_eq!(show(&message), show(&papers::sample()));
}

/// A response with this certReqId and status.
fn response(kind: u8, number: i32, status: u32) -> Outgoing {
    Outgoing {
        number: Some(number),
        status: Some(status),
        ..order(kind)
    }
}

/// An error, and responses with and without a certificate.
#[test]
fn bodies_of_errors_and_responses() {
    let name = name().encode();
    let least = Given::new(2, &name, &name);
    let with_certificate = Given {
        certificate: Some(&[0x30, 0x00]),
        ..least
    };
    for (outgoing, expected) in [
        (order(23), "B7 0C 30 0A 30 08 02 01 02 03 03 02 00 04"),
        (order(19), "B3 02 05 00"),
        (
            response(1, 0, 2),
            "A1 0E 30 0C 30 0A 30 08 02 01 00 30 03 02 01 02",
        ),
        (
            response(3, -1, 2),
            "A3 0E 30 0C 30 0A 30 08 02 01 FF 30 03 02 01 02",
        ),
    ] {
        assert_eq!(body(&outgoing, &least), show(&hex(expected)));
    }
    let granted = "A1 14 30 12 30 10 30 0E 02 01 00 30 03 02 01 00 30 04 A0 02 30 00";
    let found = body(&response(1, 0, 0), &with_certificate);
    assert_eq!(found, show(&hex(granted)));
}

/// "A certConf's status 0 being left out."
#[test]
fn bodies_of_confirmations() {
    let name = name().encode();
    let given = Given::new(2, &name, &name);
    let declined = Outgoing {
        status: Some(2),
        ..order(24)
    };
    let hash = "AB".repeat(32);
    for (outgoing, head, rest) in [
        (
            declined,
            "B8 2E 30 2C 30 2A 04 20",
            "02 01 00 30 03 02 01 02",
        ),
        (order(24), "B8 29 30 27 30 25 04 20", "02 01 00"),
    ] {
        let expected = [head, &hash, rest].concat();
        assert_eq!(body(&outgoing, &given), show(&hex(&expected)));
    }
}

/// PKIFailureInfo with one bit: those that the papers list, the others up to 26,
/// and two above.
const BITS: [(u8, &str); 29] = [
    (0, "03 02 07 80"),
    (1, "03 02 06 40"),
    (2, "03 02 05 20"),
    (3, "03 02 04 10"),
    (4, "03 02 03 08"),
    (5, "03 02 02 04"),
    (6, "03 02 01 02"),
    (7, "03 02 00 01"),
    (8, "03 03 07 00 80"),
    (9, "03 03 06 00 40"),
    (10, "03 03 05 00 20"),
    (11, "03 03 04 00 10"),
    (12, "03 03 03 00 08"),
    (13, "03 03 02 00 04"),
    (14, "03 03 01 00 02"),
    (15, "03 03 00 00 01"),
    (16, "03 04 07 00 00 80"),
    (17, "03 04 06 00 00 40"),
    (18, "03 04 05 00 00 20"),
    (19, "03 04 04 00 00 10"),
    (20, "03 04 03 00 00 08"),
    (21, "03 04 02 00 00 04"),
    (22, "03 04 01 00 00 02"),
    (23, "03 04 00 00 00 01"),
    (24, "03 05 07 00 00 00 80"),
    (25, "03 05 06 00 00 00 40"),
    (26, "03 05 05 00 00 00 20"),
    (31, "03 05 00 00 00 00 01"),
    (32, "03 06 07 00 00 00 00 80"),
];

#[test]
fn failure_bits() {
    let elements = Elements::new();
    let last = format!("03 21 01 {} 02", "00".repeat(31));
    for (bit, expected) in BITS.into_iter().chain([(254, &last[..])]) {
        let outgoing = Outgoing {
            failure: Some(bit),
            ..order(23)
        };
        let found = body(&outgoing, &elements.least(&outgoing));
        assert!(
            found.ends_with(&format!("020102{}", show(&hex(expected)))),
            "{bit}"
        );
    }
    let none = Outgoing {
        failure: None,
        ..order(23)
    };
    let expected = show(&hex("B7 07 30 05 30 03 02 01 02"));
    assert_eq!(body(&none, &elements.least(&none)), expected);
}

/// pvno of every length; 3 is no matter of the grammar.
#[test]
fn versions() {
    let name = name().encode();
    for (version, expected) in [
        (2, "02 01 02"),
        (3, "02 01 03"),
        (-1, "02 01 FF"),
        (127, "02 01 7F"),
        (128, "02 02 00 80"),
        (-128, "02 01 80"),
        (-129, "02 02 FF 7F"),
        (32_767, "02 02 7F FF"),
        (32_768, "02 03 00 80 00"),
        (-32_769, "02 03 FF 7F FF"),
        (8_388_607, "02 03 7F FF FF"),
        (8_388_608, "02 04 00 80 00 00"),
        (-8_388_609, "02 04 FF 7F FF FF"),
        (i32::MAX, "02 04 7F FF FF FF"),
        (i32::MIN, "02 04 80 00 00 00"),
    ] {
        let message = written(&order(19), &Given::new(version, &name, &name));
        let header = show(message.part(message.reading.header));
        assert!(header[4..].starts_with(&show(&hex(expected))), "{version}");
    }
}

/// Why a call with enough room is refused by 36.
fn misfit(call: &Call) -> Misfit {
    match Tally::default().compare(call, MESSAGE_LIMIT) {
        Err(Unwritten::Misfit(misfit)) => misfit,
        other => panic!("{other:02X?}"),
    }
}

/// A kind, a part, its levels, and an element so deep.
type Place<'a> = (u8, Part, usize, &'a dyn Fn(usize) -> Node);

/// The deepest element that fits at each place, and one level more: levels left
/// for a name 14, for protectionAlg and generalInfo 13, for a request 13 and 14
/// in a p10cr, for a certificate 9.
#[test]
fn depth_at_each_place() {
    let oid = || Node::oid(&[0x2A]);
    let typed = |levels| Node::sequence(vec![oid(), nest(levels - 2, Node::null())]);
    let request = |levels| {
        let fields = vec![Node::integer(0), nest(levels - 3, Node::null())];
        Node::sequence(vec![Node::sequence(fields)])
    };
    let places: [Place; 7] = [
        (19, Part::Sender, 14, &|n| {
            Node::explicit(4, nest(n - 2, Node::null()))
        }),
        (19, Part::Recipient, 14, &|n| {
            Node::explicit(4, nest(n - 2, Node::null()))
        }),
        (19, Part::ProtectionAlg, 13, &typed),
        (19, Part::GeneralInfo, 13, &|n| {
            Node::sequence(vec![typed(n - 1)])
        }),
        (0, Part::Request, 13, &request),
        (4, Part::Request, 14, &|n| nest(n - 1, Node::null())),
        (1, Part::Certificate, 9, &|n| nest(n - 1, Node::null())),
    ];
    for (kind, part, levels, element) in places {
        let elements = Elements::new();
        let outgoing = order(kind);
        let mut call = Call::new(&outgoing, &elements.least(&outgoing));
        for (levels, fits) in [(levels, true), (levels + 1, false)] {
            put(&mut call, part, &element(levels).encode());
            match fits {
                true => drop(Tally::default().written(&call)),
                false => assert_eq!(misfit(&call), Misfit::Given(part, Why::Rule(3))),
            }
        }
    }
}

/// Gives these bytes as a part.
fn put(call: &mut Call, part: Part, bytes: &[u8]) {
    call.set(part, [call.source.len() as u64, bytes.len() as u64]);
    call.source.extend_from_slice(bytes);
}

/// 36 is not 3, 4, 5 or 16: certReqId 7 is written, one of five bytes is not.
#[test]
fn requests_of_the_caller() {
    let elements = Elements::new();
    for kind in [0, 2, 7] {
        let outgoing = order(kind);
        let mut call = Call::new(&outgoing, &elements.least(&outgoing));
        put(&mut call, Part::Request, &request_message(7, true).encode());
        Tally::default().written(&call);
        put(
            &mut call,
            Part::Request,
            &request_message(1 << 32, false).encode(),
        );
        assert_eq!(misfit(&call), Misfit::Given(Part::Request, Why::Rule(5)));
    }
}

/// A caller's element is one: not none, and not two.
#[test]
fn one_element_for_each_part() {
    let elements = Elements::new();
    let whole = [
        (0, Part::Request),
        (4, Part::Request),
        (1, Part::Certificate),
        (19, Part::Sender),
        (19, Part::Recipient),
        (19, Part::ProtectionAlg),
        (19, Part::FreeText),
        (19, Part::GeneralInfo),
    ];
    for (kind, part) in whole {
        let outgoing = order(kind);
        let call = Call::new(&outgoing, &elements.all(&outgoing));
        let one = call.part(part).expect("it is given").to_vec();
        for bytes in [vec![], [&one[..], &one].concat()] {
            let mut call = call.clone();
            put(&mut call, part, &bytes);
            assert_eq!(misfit(&call), Misfit::Given(part, Why::Rule(5)));
        }
    }
}

/// Contents may be empty, but for a BIT STRING's.
#[test]
fn empty_contents() {
    let elements = Elements::new();
    for part in [Part::MessageTime, Part::SenderKid, Part::RecipKid] {
        let mut call = Call::new(&order(19), &elements.least(&order(19)));
        put(&mut call, part, &[]);
        Tally::default().written(&call);
    }
    let mut call = Call::new(&order(19), &elements.least(&order(19)));
    put(&mut call, Part::Protection, &[0]);
    Tally::default().written(&call);
    for bits in ["", "01", "08 00", "07 C0", "01 01"] {
        put(&mut call, Part::Protection, &hex(bits));
        assert_eq!(misfit(&call), Misfit::Given(Part::Protection, Why::Rule(4)));
    }
}

/// Each part at the source's end, one byte beyond it, and at its start.
#[test]
fn parts_at_the_ends_of_the_source() {
    for part in PARTS {
        let elements = Elements::new();
        let outgoing = match part {
            Part::Request => order(0),
            Part::Certificate => order(1),
            _ => order(19),
        };
        let mut call = Call::new(&outgoing, &elements.all(&outgoing));
        let bytes = call.part(part).expect("it is given").to_vec();
        put(&mut call, part, &bytes);
        Tally::default().written(&call);
        call.source.pop();
        assert_eq!(misfit(&call), Misfit::Given(part, Why::Outside));
        call.set(part, [0, bytes.len() as u64]);
        assert_eq!(misfit(&call), Misfit::Given(part, Why::AtStart));
    }
}

/// No kind but ten is written.
#[test]
fn kinds() {
    let elements = Elements::new();
    for kind in 0..=u8::MAX {
        let outgoing = order(kind);
        let call = Call::new(&outgoing, &elements.least(&outgoing));
        match KINDS.contains(&kind) {
            true => drop(Tally::default().written(&call)),
            false => assert_eq!(misfit(&call), Misfit::Kind),
        }
    }
}

/// Another length of the order or of the list of parts comes before all else, and
/// changes nothing: with a call that is written, and with one that is over the
/// limit.
#[test]
fn lengths_of_order_and_list() {
    let sound = sample();
    let mut over = sound.clone();
    put(&mut over, Part::SenderKid, &[0; MESSAGE_LIMIT]);
    let orders = (0..=200).map(|len| (len, GIVEN));
    let lists = (0..=64).map(|len| (OUTGOING_BYTES, len));
    for (outgoing_len, given_len) in orders.chain(lists) {
        if (outgoing_len, given_len) == (OUTGOING_BYTES, GIVEN) {
            continue;
        }
        for (call, room) in [(&sound, 140), (&sound, 139), (&over, 140), (&over, 0)] {
            let mut outgoing = call.outgoing.to_vec();
            outgoing.resize(outgoing_len, 0);
            let mut given = call.given.to_vec();
            given.resize(given_len, 0);
            let mut buffer = vec![0xA5; room];
            let answer = library::write(&outgoing, 2, &given, &call.source, &mut buffer);
            assert_eq!(answer, BAD_LENGTH << 32);
            assert!(buffer.iter().all(|byte| *byte == 0xA5));
        }
    }
}
