//! The parts of CMP messages, put together to whole messages.

use super::der::Node;

/// How many optional fields a header has.
pub const OPTIONAL_FIELDS: u8 = 9;

/// The body's last choice, 26.
pub const LAST_KIND: u8 = 26;

/// The body's choices by number, with the names that RFC 9810 and 9483 use.
pub const KIND_NAMES: [&str; LAST_KIND as usize + 1] = [
    "ir", "ip", "cr", "cp", "p10cr", "popdecc", "popdecr", "kur", "kup", "krr", "krp", "rr", "rp",
    "ccr", "ccp", "ckuann", "cann", "rann", "crlann", "pkiConf", "nested", "genm", "genp", "error",
    "certConf", "pollReq", "pollRep",
];

/// The kinds that are a SEQUENCE of entries.
pub const KINDS_WITH_ENTRIES: [u8; 7] = [0, 1, 2, 3, 7, 8, 24];

/// A PKIMessage of these parts.
pub fn message(header: Node, body: Node, rest: Vec<Node>) -> Node {
    let mut parts = vec![header, body];
    parts.extend(rest);
    Node::sequence(parts)
}

/// A message with the shortest header, this body and nothing else.
pub fn bare(body: Node) -> Node {
    message(header(0), body, Vec::new())
}

/// Protection, `[0]`.
pub fn protection() -> Node {
    Node::explicit(0, Node::bits(0, &[0x5A, 0x00]))
}

/// extraCerts, `[1]`.
pub fn extra_certs(count: usize) -> Node {
    Node::explicit(1, Node::sequence(vec![certificate(); count]))
}

/// pvno 2, two names, and the optional fields whose bits are set in `fields`.
pub fn header(fields: u16) -> Node {
    let mut parts = vec![Node::integer(2), name(), name()];
    parts.extend(
        (0..OPTIONAL_FIELDS)
            .filter(|number| fields >> number & 1 == 1)
            .map(header_field),
    );
    Node::sequence(parts)
}

/// The header with every optional field.
pub fn full_header() -> Node {
    header((1 << OPTIONAL_FIELDS) - 1)
}

/// One optional header field, 0 to 8.
pub fn header_field(number: u8) -> Node {
    let inside = match number {
        0 => Node::time("20261115120000Z"),
        1 => algorithm(true),
        2 => Node::octets(&[0xC2, 0xC2]),
        3 => Node::octets(&[]),
        4..=6 => Node::octets(&[number; 16]),
        7 => free_text(2),
        _ => Node::sequence(vec![algorithm(false), algorithm(true)]),
    };
    Node::explicit(number, inside)
}

/// A directoryName with an empty Name.
pub fn name() -> Node {
    Node::explicit(4, Node::sequence(Vec::new()))
}

/// An AlgorithmIdentifier (or InfoTypeAndValue), with or without a parameter.
pub fn algorithm(parameter: bool) -> Node {
    let mut parts = vec![Node::oid(&[0x2A, 0x86, 0x48, 0x86, 0xF6, 0x7D, 0x07])];
    if parameter {
        parts.push(Node::sequence(vec![Node::integer(-129), Node::null()]));
    }
    Node::sequence(parts)
}

/// A SEQUENCE of UTF8Strings.
pub fn free_text(count: usize) -> Node {
    Node::sequence(vec![Node::utf8("späť"); count])
}

/// Something that looks like a certificate from outside.
pub fn certificate() -> Node {
    Node::sequence(vec![
        Node::sequence(vec![
            Node::explicit(0, Node::integer(2)),
            Node::boolean(true),
        ]),
        algorithm(false),
        Node::bits(1, &[0xAA]),
    ])
}

/// A status info with every optional part, or with none.
pub fn status_info(status: i64, full: bool) -> Node {
    let mut parts = vec![Node::integer(status)];
    if full {
        parts.push(free_text(1));
        parts.push(Node::bits(2, &[0x04]));
    }
    Node::sequence(parts)
}

/// A request message with more than it needs, or with nothing more.
pub fn request_message(number: i64, full: bool) -> Node {
    let mut fields = vec![Node::integer(number)];
    let mut parts = Vec::new();
    if full {
        fields.push(Node::sequence(vec![Node::explicit(5, certificate())]));
        parts.push(Node::constructed(
            0xA1,
            vec![algorithm(false), Node::bits(0, &[1])],
        ));
        parts.push(Node::sequence(Vec::new()));
    }
    parts.insert(0, Node::sequence(fields));
    Node::sequence(parts)
}

/// The key pair of a response: a plain certificate (`[0]`) or an encrypted one
/// (`[1]`), with or without the two optional parts.
pub fn key_pair(choice: u8, full: bool) -> Node {
    let mut parts = vec![Node::explicit(choice, certificate())];
    if full {
        parts.push(Node::explicit(0, Node::octets(&[1, 2, 3])));
        parts.push(Node::explicit(1, Node::sequence(vec![Node::integer(1)])));
    }
    Node::sequence(parts)
}

/// A response with every optional part, or with none.
pub fn response(number: i64, status: i64, full: bool) -> Node {
    let mut parts = vec![Node::integer(number), status_info(status, full)];
    if full {
        parts.push(key_pair(0, true));
        parts.push(Node::octets(&[0x77]));
    }
    Node::sequence(parts)
}

/// The content of an ip, cp or kup.
pub fn responses(ca_pubs: bool, responses: Vec<Node>) -> Node {
    let mut parts = vec![Node::sequence(responses)];
    if ca_pubs {
        parts.insert(0, Node::explicit(1, Node::sequence(vec![certificate(); 2])));
    }
    Node::sequence(parts)
}

/// A certificate status with every optional part, or with none.
pub fn cert_status(number: i64, full: bool) -> Node {
    let mut parts = vec![Node::octets(&[0xAB; 32]), Node::integer(number)];
    if full {
        parts.push(status_info(2, true));
        parts.push(Node::explicit(0, algorithm(true)));
    }
    Node::sequence(parts)
}

/// The content of an error message.
pub fn error_message(full: bool) -> Node {
    let mut parts = vec![status_info(2, full)];
    if full {
        parts.push(Node::integer(0x12_3456_789A));
        parts.push(free_text(1));
    }
    Node::sequence(parts)
}

/// A body of this kind with so many entries, each with every optional part or
/// with none. Kinds without entries ignore the count.
pub fn body(kind: u8, entries: usize, full: bool) -> Node {
    let inside = match kind {
        0 | 2 | 7 => Node::sequence(vec![request_message(-1, full); entries]),
        1 | 3 | 8 => responses(full, vec![response(-2, 1, full); entries]),
        19 => Node::null(),
        23 => error_message(full),
        24 => Node::sequence(vec![cert_status(0x7FFF_FFFF, full); entries]),
        _ => certificate(),
    };
    Node::explicit(kind, inside)
}

/// Sound messages that between them hold every body kind and every optional
/// part, present and absent.
pub fn bases() -> Vec<Node> {
    let mut bases = vec![message(
        full_header(),
        body(24, 1, true),
        vec![protection(), extra_certs(2)],
    )];
    for kind in 0..=LAST_KIND {
        bases.push(bare(body(kind, 1, false)));
        bases.push(message(
            header(0b1_0010),
            body(kind, 1, true),
            vec![protection()],
        ));
    }
    for kind in KINDS_WITH_ENTRIES {
        bases.push(message(
            header(0),
            body(kind, 2, true),
            vec![extra_certs(1)],
        ));
    }
    for choice in [0, 1] {
        let parts = vec![
            Node::integer(0),
            status_info(0, false),
            key_pair(choice, false),
        ];
        bases.push(bare(Node::explicit(
            1,
            responses(false, vec![Node::sequence(parts)]),
        )));
    }
    bases
}
