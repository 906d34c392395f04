//! Every place of the grammar: other tags, more elements, fewer, and moved ones.

use super::tally::Tally;
use duskstall_host::testing::der::{Content, Node};
use duskstall_host::testing::messages::*;

#[test]
fn every_tag_at_every_element() {
    let mut tally = Tally::default();
    for base in bases() {
        tally.clean(&base.encode());
        for number in 0..base.count() {
            let mut edited = base.clone();
            for tag in 0..=255 {
                edited.nth(number).0.tag = tag;
                let _ = tally.message(&edited.encode());
            }
        }
    }
    tally.report("every tag at every element");
}

#[test]
fn every_tag_between_the_elements() {
    at_constructed("every tag between the elements", |base, number, tally| {
        for content in [&[][..], &[0x00], &[0x02, 0x01, 0x00]] {
            insert_every_tag(base, number, content, tally);
        }
    });
}

/// Inserts an element with each tag before, between and after the children of
/// one element.
fn insert_every_tag(base: &Node, number: usize, content: &[u8], tally: &mut Tally) {
    let mut edited = base.clone();
    for gap in 0..=children(&mut edited, number).len() {
        children(&mut edited, number).insert(gap, Node::primitive(0x00, content));
        for tag in 0..=255 {
            children(&mut edited, number)[gap].tag = tag;
            let _ = tally.message(&edited.encode());
        }
        children(&mut edited, number).remove(gap);
    }
}

/// Edits each base at each of its constructed elements, and prints the counts.
fn at_constructed(name: &str, edit: impl Fn(&Node, usize, &mut Tally)) {
    let mut tally = Tally::default();
    for base in bases() {
        for number in 0..base.count() {
            if base.clone().nth(number).0.children_mut().is_some() {
                edit(&base, number, &mut tally);
            }
        }
    }
    tally.report(name);
}

/// The children of a constructed element.
fn children(message: &mut Node, number: usize) -> &mut Vec<Node> {
    let (node, _) = message.nth(number);
    node.children_mut().expect("the element is constructed")
}

#[test]
fn all_sets_of_optional_header_fields() {
    let mut tally = Tally::default();
    for fields in 0..1 << OPTIONAL_FIELDS {
        for (body, rest) in [
            (body(19, 0, false), vec![]),
            (body(24, 1, true), vec![protection()]),
            (body(1, 1, true), vec![protection(), extra_certs(1)]),
            (body(0, 1, false), vec![extra_certs(2)]),
        ] {
            let reading = tally.clean(&message(header(fields), body, rest).encode());
            let found = [
                reading.message_time,
                reading.protection_alg,
                reading.sender_kid,
                reading.recip_kid,
                reading.transaction_id,
                reading.sender_nonce,
                reading.recip_nonce,
                reading.free_text,
                reading.general_info,
            ];
            for (number, span) in found.iter().enumerate() {
                assert_eq!(span.start > 0, fields >> number & 1 == 1);
            }
        }
    }
    tally.report("all sets of optional header fields");
}

#[test]
fn elements_swapped_doubled_dropped_and_moved() {
    at_constructed("elements swapped, doubled, dropped and moved", rearrange);
}

/// Rearranges the children of one element in each of these ways.
fn rearrange(base: &Node, number: usize, tally: &mut Tally) {
    let count = children(&mut base.clone(), number).len();
    let mut edit = |change: &dyn Fn(&mut Vec<Node>)| {
        let mut edited = base.clone();
        change(children(&mut edited, number));
        let _ = tally.message(&edited.encode());
    };
    for at in 0..count {
        edit(&|children| children.insert(at, children[at].clone()));
        edit(&|children| children.push(children[at].clone()));
        edit(&|children| children.truncate(at));
        edit(&|children| drop(children.remove(at)));
        edit(&|children| children[at..].rotate_left(1));
        for other in at + 1..count {
            edit(&|children| children.swap(at, other));
        }
    }
}

#[test]
fn entry_counts() {
    let mut tally = Tally::default();
    for kind in KINDS_WITH_ENTRIES {
        for (entries, full) in (0..=3).flat_map(|entries| [(entries, false), (entries, true)]) {
            let message = bare(body(kind, entries, full));
            match tally.message(&message.encode()) {
                Ok(reading) => assert_eq!(reading.entries, entries),
                Err(_) => assert!(entries == 0 && [0, 2, 7].contains(&kind)),
            }
            change_values(&message, &mut tally);
        }
    }
    tally.report("entry counts");
}

/// Gives each INTEGER of a message values at the four-byte rule's edges, and
/// empties each element.
fn change_values(message: &Node, tally: &mut Tally) {
    const EDGES: [i64; 4] = [0x7FFF_FFFF, 0x8000_0000, -0x8000_0000, -0x8000_0001];
    for number in 0..message.count() {
        let empty = message.edited(number, |node| node.content = Content::Bytes(Vec::new()));
        let _ = tally.message(&empty.encode());
        for value in EDGES {
            let changed = message.edited(number, |node| {
                if node.tag == 0x02 {
                    *node = Node::integer(value);
                }
            });
            let _ = tally.message(&changed.encode());
        }
    }
}
