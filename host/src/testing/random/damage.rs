//! Ways to damage a message: its elements, or its bytes.

use super::Random;
use crate::testing::der::{nest, Content, LengthForm, Node};

/// Damages a message's elements and keeps the enclosing lengths right, so that
/// mostly the grammar is broken.
pub fn damage_elements(message: &mut Node, random: &mut Random) {
    let count = message.count();
    let other = message.nth(random.below(count)).0.clone();
    let at = random.below(count);
    let choice = random.below(12);
    let (node, depth) = message.nth(at);
    match choice {
        0 => node.tag = random.byte(),
        1 => node.tag = other.tag,
        2 => *node = other,
        3 => node.tag ^= 1 << random.below(8),
        4 => node.length = wrong_length(node, random),
        5 => *node = nest((17 + random.below(3)).saturating_sub(depth), other),
        6 => change_content(node, random),
        7 => *node = Node::primitive(node.tag, &[]),
        _ => change_children(node, other, random),
    }
}

fn wrong_length(node: &Node, random: &mut Random) -> LengthForm {
    let length = node.content_len();
    match random.below(6) {
        0 => LengthForm::Long(random.below(5) as u8),
        1 => LengthForm::Long(random.byte() & 0x7F),
        2 => LengthForm::Short,
        3 => LengthForm::Wrong(random.below(2 * length + 2)),
        4 => LengthForm::Wrong(length + 1 + random.below(4)),
        _ => LengthForm::Wrong(length.saturating_sub(1 + random.below(4))),
    }
}

/// Puts bytes before, after or in place of a primitive's content.
fn change_content(node: &mut Node, random: &mut Random) {
    let Content::Bytes(bytes) = &mut node.content else {
        return;
    };
    let special = *random.pick(&[0x00, 0x7F, 0x80, 0xFF, 0x01, 0x08]);
    match random.below(5) {
        0 => bytes.insert(0, special),
        1 => bytes.push(special),
        2 => {
            bytes.pop();
        }
        3 => *bytes = vec![special],
        _ => *bytes = random.filler(),
    }
}

/// Adds, drops, doubles, swaps or moves children.
fn change_children(node: &mut Node, other: Node, random: &mut Random) {
    let Some(children) = node.children_mut() else {
        return change_content(node, random);
    };
    let count = children.len();
    let at = random.below(count);
    match random.below(6) {
        0 => children.insert(random.below(count + 1), other),
        1 => children.push(other),
        _ if count == 0 => children.push(other),
        2 => {
            children.remove(at);
        }
        3 => children.insert(at, children[at].clone()),
        4 => children.swap(at, random.below(count)),
        _ => children.truncate(at),
    }
}

/// Damages a message's bytes and lets the lengths go wrong.
pub fn damage_bytes(message: &mut Vec<u8>, random: &mut Random) {
    let len = message.len();
    let at = random.below(len);
    match random.below(8) {
        0 => message.truncate(at),
        1 => message.insert(random.below(len + 1), random.byte()),
        2 if len > 0 => {
            message.remove(at);
        }
        3 if len > 0 => message[at] ^= 1 << random.below(8),
        4 if len > 0 => message[at] = random.byte(),
        5 => {
            let more = 1 + random.below(4);
            message.extend(random.bytes(more));
        }
        6 => {
            let tail = *random.pick(&[&[0x05, 0x00][..], &[0x30], &[0x30, 0x00], &[0x00]]);
            message.extend_from_slice(tail);
        }
        _ => {
            let end = at + random.below(len - at);
            let piece = message[at..end].to_vec();
            let to = random.below(len + 1);
            message.splice(to..to, piece);
        }
    }
}
