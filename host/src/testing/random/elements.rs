//! Sound elements of every sort, with contents drawn at random.

use super::Random;
use crate::testing::der::{nest, Node};

/// A SEQUENCE of at least so many of the same.
pub fn list(random: &mut Random, least: usize, item: fn(&mut Random) -> Node) -> Node {
    let count = least + [0, 0, 0, 0, 1, 1, 2, 3][random.below(8)];
    Node::sequence((0..count).map(|_| item(random)).collect())
}

/// A SEQUENCE of the same that is seldom empty.
pub fn mostly_some(random: &mut Random, item: fn(&mut Random) -> Node) -> Node {
    let least = usize::from(!random.once_in(8));
    list(random, least, item)
}

/// Adds a part once in so many times.
pub fn maybe(
    parts: &mut Vec<Node>,
    random: &mut Random,
    times: usize,
    part: impl FnOnce(&mut Random) -> Node,
) {
    if random.once_in(times) {
        parts.push(part(random));
    }
}

pub fn small_integer(random: &mut Random) -> Node {
    if random.once_in(2) {
        Node::integer(random.below(4) as i64 - 1)
    } else {
        integer(random, 4)
    }
}

/// An INTEGER of one to `most` bytes in its shortest form.
pub fn integer(random: &mut Random, most: usize) -> Node {
    let len = 1 + random.below(most);
    let mut bytes = random.bytes(len);
    if bytes.len() > 1 && (bytes[0] == 0x00 || bytes[0] == 0xFF) {
        bytes[1] ^= (bytes[0] ^ bytes[1] ^ 0x80) & 0x80;
    }
    Node::primitive(0x02, &bytes)
}

pub fn octets(random: &mut Random) -> Node {
    let bytes = if random.once_in(2) {
        random.bytes(16)
    } else {
        random.filler()
    };
    Node::octets(&bytes)
}

pub fn bits(random: &mut Random) -> Node {
    let mut data = random.filler();
    let unused = if data.is_empty() {
        0
    } else {
        random.below(8) as u8
    };
    if let Some(last) = data.last_mut() {
        *last &= 0xFFu8 << unused;
    }
    Node::bits(unused, &data)
}

pub fn oid(random: &mut Random) -> Node {
    let mut content = Vec::new();
    for _ in 0..1 + random.below(5) {
        let start = content.len();
        for _ in 0..random.below(3) {
            content.push(random.byte() | 0x80);
        }
        if content.get(start) == Some(&0x80) {
            content[start] = 0x81;
        }
        content.push(random.byte() & 0x7F);
    }
    Node::oid(&content)
}

pub fn opaque(random: &mut Random, tag: u8) -> Node {
    Node::primitive(tag, &random.filler())
}

/// None to three sound elements of any kind, at most so deep.
pub fn generics(random: &mut Random, depth: usize) -> Vec<Node> {
    (0..random.below(4))
        .map(|_| generic(random, depth))
        .collect()
}

/// A sound element of any kind, at most so deep and rarely four levels more.
pub fn generic(random: &mut Random, depth: usize) -> Node {
    if random.once_in(256) {
        return nest(random.below(5), Node::null());
    }
    match random.below(if depth == 0 { 10 } else { 18 }) {
        0 => Node::boolean(random.once_in(2)),
        1 => integer(random, 9),
        2 => bits(random),
        3 => Node::null(),
        4 | 5 => oid(random),
        6 => octets(random),
        7 => opaque(random, 0x0C),
        8 => {
            let tag = *random.pick(&[0x07, 0x0A, 0x0E, 0x13, 0x16, 0x17, 0x18, 0x1E]);
            opaque(random, tag)
        }
        9 => {
            let tag = 0x40 * (1 + random.below(3) as u8) + random.below(31) as u8;
            opaque(random, tag)
        }
        10..=14 => Node::sequence(generics(random, depth - 1)),
        15 => Node::constructed(0x31, generics(random, depth - 1)),
        _ => {
            let tag = 0x20 + 0x40 * (1 + random.below(3) as u8) + random.below(31) as u8;
            Node::constructed(tag, generics(random, depth - 1))
        }
    }
}
