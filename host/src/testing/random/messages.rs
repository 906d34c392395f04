//! Whole messages that follow the grammar.

use super::elements::{bits, generic, generics, integer, list, maybe, mostly_some};
use super::elements::{octets, oid, opaque, small_integer};
use super::Random;
use crate::limits::MESSAGE_LIMIT;
use crate::testing::der::{nest, Node};
use crate::testing::messages::{LAST_KIND, OPTIONAL_FIELDS};

/// A message of the grammar.
pub fn message(random: &mut Random) -> Node {
    let mut parts = vec![header(random), body(random)];
    if !random.once_in(3) {
        parts.push(Node::explicit(0, bits(random)));
    }
    maybe(&mut parts, random, 3, |random| {
        Node::explicit(1, certificates(random))
    });
    let mut message = Node::sequence(parts);
    if random.once_in(4096) {
        enlarge(&mut message, random);
    }
    message
}

/// Brings a message near the limit of its size, or a little over it.
fn enlarge(message: &mut Node, random: &mut Random) {
    set_body(message, Node::explicit(5, Node::octets(&[])));
    // The length forms grow by some bytes themselves.
    let size = (MESSAGE_LIMIT - random.below(16)).saturating_sub(message.encoded_len());
    let filler = random.bytes(size);
    set_body(message, Node::explicit(5, Node::octets(&filler)));
}

fn set_body(message: &mut Node, body: Node) {
    if let Some([_, old, ..]) = message.children_mut().map(Vec::as_mut_slice) {
        *old = body;
    }
}

fn header(random: &mut Random) -> Node {
    let mut parts = vec![
        small_integer(random),
        general_name(random),
        general_name(random),
    ];
    for number in 0..OPTIONAL_FIELDS {
        maybe(&mut parts, random, 2, |random| {
            Node::explicit(number, header_field(random, number))
        });
    }
    Node::sequence(parts)
}

fn header_field(random: &mut Random, number: u8) -> Node {
    match number {
        0 => Node::time("20261115120000Z"),
        1 => algorithm(random),
        2..=6 => octets(random),
        7 => free_text(random),
        _ => general_infos(random),
    }
}

pub fn general_name(random: &mut Random) -> Node {
    match *random.pick(&[0xA0, 0x81, 0x82, 0xA3, 0xA4, 0xA4, 0xA5, 0x86, 0x87, 0x88]) {
        tag @ 0xA0.. => Node::constructed(tag, generics(random, 2)),
        tag => opaque(random, tag),
    }
}

pub fn algorithm(random: &mut Random) -> Node {
    let mut parts = vec![oid(random)];
    maybe(&mut parts, random, 2, |random| generic(random, 2));
    Node::sequence(parts)
}

pub fn free_text(random: &mut Random) -> Node {
    list(random, 1, |random| opaque(random, 0x0C))
}

pub fn general_infos(random: &mut Random) -> Node {
    list(random, 1, algorithm)
}

fn certificates(random: &mut Random) -> Node {
    list(random, 1, certificate)
}

pub fn certificate(random: &mut Random) -> Node {
    Node::sequence(generics(random, 3))
}

fn body(random: &mut Random) -> Node {
    let kind = if random.once_in(3) {
        random.below(usize::from(LAST_KIND) + 1) as u8
    } else {
        *random.pick(&[0, 1, 2, 3, 7, 8, 23, 24])
    };
    let inside = match kind {
        0 | 2 | 7 => list(random, 1, request_message),
        1 | 3 | 8 => responses(random),
        19 => Node::null(),
        23 => error_message(random),
        24 => mostly_some(random, cert_status),
        _ if random.once_in(16) => nest(random.below(14), Node::null()),
        _ => generic(random, 3),
    };
    Node::explicit(kind, inside)
}

pub fn request_message(random: &mut Random) -> Node {
    let mut fields = vec![small_integer(random)];
    fields.extend(generics(random, 2));
    let mut parts = vec![Node::sequence(fields)];
    parts.extend(generics(random, 2));
    Node::sequence(parts)
}

fn responses(random: &mut Random) -> Node {
    let mut parts = Vec::new();
    maybe(&mut parts, random, 3, |random| {
        Node::explicit(1, certificates(random))
    });
    parts.push(mostly_some(random, response));
    Node::sequence(parts)
}

fn response(random: &mut Random) -> Node {
    let mut parts = vec![small_integer(random), status_info(random)];
    maybe(&mut parts, random, 2, key_pair);
    maybe(&mut parts, random, 3, octets);
    Node::sequence(parts)
}

fn key_pair(random: &mut Random) -> Node {
    let mut parts = vec![if random.once_in(3) {
        Node::explicit(1, generic(random, 2))
    } else {
        Node::explicit(0, certificate(random))
    }];
    for number in [0, 1] {
        maybe(&mut parts, random, 3, |random| {
            Node::explicit(number, generic(random, 2))
        });
    }
    Node::sequence(parts)
}

fn status_info(random: &mut Random) -> Node {
    let mut parts = vec![small_integer(random)];
    maybe(&mut parts, random, 3, free_text);
    maybe(&mut parts, random, 3, fail_info);
    Node::sequence(parts)
}

/// A BIT STRING whose last bit is one, or that has no bit.
fn fail_info(random: &mut Random) -> Node {
    let unused = random.below(8) as u8;
    match random.below(5) {
        0 => Node::bits(0, &[]),
        more => {
            let mut data = random.bytes(more);
            data[more - 1] = (data[more - 1] | 1) << unused;
            Node::bits(unused, &data)
        }
    }
}

fn error_message(random: &mut Random) -> Node {
    let mut parts = vec![status_info(random)];
    maybe(&mut parts, random, 2, |random| integer(random, 9));
    maybe(&mut parts, random, 2, free_text);
    Node::sequence(parts)
}

fn cert_status(random: &mut Random) -> Node {
    let mut parts = vec![octets(random), small_integer(random)];
    maybe(&mut parts, random, 2, status_info);
    maybe(&mut parts, random, 3, |random| {
        Node::explicit(0, algorithm(random))
    });
    Node::sequence(parts)
}
