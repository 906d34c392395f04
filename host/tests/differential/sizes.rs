//! Short inputs, all of them; nests and lengths.

use super::tally::Tally;
use duskstall_host::testing::der::{hex, nest, LengthForm, Node, LENGTH_FORMS};
use duskstall_host::testing::messages::*;
use duskstall_host::{Refused, MESSAGE_LIMIT};

#[test]
fn every_input_of_up_to_three_bytes() {
    let mut tally = Tally::default();
    let _ = tally.message(&[]);
    for first in 0..=255 {
        let _ = tally.message(&[first]);
        for second in 0..=255 {
            let _ = tally.message(&[first, second]);
            for third in 0..=255 {
                let _ = tally.message(&[first, second, third]);
            }
        }
    }
    tally.report("every input of up to three bytes");
}

#[test]
fn every_content_of_two_bytes() {
    let mut tally = Tally::default();
    for tag in 0x00..=0x3F {
        for content in 0..=u16::MAX {
            let [first, second] = content.to_be_bytes();
            tally.run(&[tag, 2, first, second]);
        }
    }
    tally.report("every content of two bytes");
}

#[test]
fn nests_of_fifteen_to_seventeen() {
    let mut tally = Tally::default();
    for (deepest, clean) in [(15, true), (16, true), (17, false)] {
        let bytes = bare(Node::explicit(5, nest(deepest - 3, Node::null()))).encode();
        assert_eq!(tally.message(&bytes).is_ok(), clean);
        let bytes = nest(deepest - 1, Node::null()).encode();
        assert_eq!(tally.run(&bytes).is_none(), clean);
        for base in bases() {
            for number in 0..base.count() {
                for innermost in [
                    "05 00",
                    "30 00",
                    "A0 02 05 00",
                    "1F 00",
                    "05 01",
                    "24 00",
                    "05 01 00",
                ] {
                    nest_at(&base, number, deepest, &hex(innermost), &mut tally);
                }
            }
        }
    }
    tally.report("nests of 15, 16 and 17");
}

/// Puts a nest that ends at depth `deepest` in the place of one element, and
/// after all its children.
fn nest_at(base: &Node, number: usize, deepest: usize, innermost: &[u8], tally: &mut Tally) {
    let nest_from = |depth| nest(deepest - depth - 1, Node::primitive(0x30, innermost));
    let (_, depth) = base.clone().nth(number);
    let replaced = base.edited(number, |node| *node = nest_from(depth));
    let _ = tally.message(&replaced.encode());
    let added = base.edited(number, |node| {
        if let Some(children) = node.children_mut() {
            children.push(nest_from(depth + 1));
        }
    });
    let _ = tally.message(&added.encode());
}

#[test]
fn whole_messages_of_critical_sizes() {
    let mut tally = Tally::default();
    // No element is 130 or 259 bytes long: there the length form grows.
    let sizes = (100..=400).chain(MESSAGE_LIMIT - 6..=MESSAGE_LIMIT + 6);
    for size in sizes.filter(|size| ![130, 259].contains(size)) {
        for form in LENGTH_FORMS {
            let bytes = message_of_size(size, form);
            let clean = form == LengthForm::Shortest && size <= MESSAGE_LIMIT;
            assert!(bytes.is_some() || form != LengthForm::Shortest);
            if let Some(bytes) = bytes {
                let answer = tally.message(&bytes);
                assert!(answer.is_ok() || !clean, "{size} {answer:?}");
                let by_size = matches!(answer, Err(Refused { number: 1, .. }));
                assert_eq!(by_size, size > MESSAGE_LIMIT);
            }
        }
    }
    tally.report("whole messages of critical sizes");
}

/// A message of exactly this size with its outer length in this form.
fn message_of_size(size: usize, form: LengthForm) -> Option<Vec<u8>> {
    (0..8).find_map(|extra| {
        let sender = Node::primitive(0x82, &[b'x'; 8][..extra]);
        let header = Node::sequence(vec![Node::integer(2), sender, name()]);
        let build = |filler: usize| {
            let body = Node::explicit(5, Node::octets(&vec![0xEE; filler]));
            message(header.clone(), body, vec![])
                .with_length(form)
                .encode()
        };
        let room = size.checked_sub(build(0).len())?;
        (room.saturating_sub(8)..=room)
            .map(build)
            .find(|bytes| bytes.len() == size)
    })
}

#[test]
fn inner_elements_of_critical_sizes() {
    let mut tally = Tally::default();
    for size in [
        0,
        1,
        2,
        126,
        127,
        128,
        129,
        254,
        255,
        256,
        257,
        // With room for the message around it.
        MESSAGE_LIMIT - 384,
        MESSAGE_LIMIT,
        MESSAGE_LIMIT + 1,
    ] {
        let wrong = [size.saturating_sub(1), size + 1, size + 2, 0].map(LengthForm::Wrong);
        for form in LENGTH_FORMS.iter().chain(&wrong) {
            for message in messages_with(size, *form) {
                let bytes = message.encode();
                let answer = tally.message(&bytes);
                if *form == LengthForm::Shortest && size > 1 && bytes.len() <= MESSAGE_LIMIT {
                    assert!(answer.is_ok(), "{size} {answer:?}");
                }
            }
        }
    }
    tally.report("inner elements of critical sizes");
}

/// Messages with an element of so many content bytes and this length form at
/// each sort of place.
fn messages_with(size: usize, form: LengthForm) -> Vec<Node> {
    let sized = |tag: u8, byte: u8| Node::primitive(tag, &vec![byte; size]).with_length(form);
    let run = Node::primitive(0x30, &run_of_size(size)).with_length(form);
    let mut messages = in_headers(&sized, &run);
    messages.extend(in_bodies(&sized, &run));
    messages.extend(
        [
            Node::explicit(0, sized(0x03, 0x00)),
            Node::explicit(1, Node::sequence(vec![run.clone(), run])),
        ]
        .map(|rest| message(header(0), body(19, 0, false), vec![rest])),
    );
    messages
}

/// An element of the size asked for, of this tag and filled with this byte.
type Sized<'a> = &'a dyn Fn(u8, u8) -> Node;

fn in_headers(sized: Sized, run: &Node) -> Vec<Node> {
    let with = |sender: Node, recipient: Node, fields: Vec<Node>| {
        let mut parts = vec![Node::integer(2), sender, recipient];
        parts.extend(fields);
        message(Node::sequence(parts), body(19, 0, false), vec![])
    };
    let info = Node::sequence(vec![Node::oid(&[0x2A]), run.clone()]);
    let fields = [
        (0, sized(0x18, b'0')),
        (1, Node::sequence(vec![sized(0x06, 0x2A)])),
        (4, sized(0x04, 0x11)),
        (7, Node::sequence(vec![sized(0x0C, b'z')])),
        (8, Node::sequence(vec![info])),
    ];
    let mut messages = vec![with(sized(0x82, b'x'), sized(0x86, b'y'), vec![])];
    messages.extend(
        fields.map(|(number, inside)| with(name(), name(), vec![Node::explicit(number, inside)])),
    );
    messages
}

fn in_bodies(sized: Sized, run: &Node) -> Vec<Node> {
    let pair = Node::sequence(vec![Node::explicit(0, run.clone())]);
    let response = vec![Node::integer(0), status_info(0, false), pair];
    let status = Node::sequence(vec![sized(0x04, 0xAB), Node::integer(0)]);
    [
        (5, sized(0x04, 0xEE)),
        (4, run.clone()),
        (1, responses(false, vec![Node::sequence(response)])),
        (
            23,
            Node::sequence(vec![status_info(2, false), sized(0x02, 0x01)]),
        ),
        (24, Node::sequence(vec![status])),
    ]
    .map(|(kind, inside)| bare(Node::explicit(kind, inside)))
    .into()
}

/// Sound elements of exactly so many bytes altogether, if that is possible.
fn run_of_size(size: usize) -> Vec<u8> {
    let mut run = Vec::new();
    if size % 2 == 1 && size > 2 {
        run.extend(hex("02 01 00"));
    }
    while run.len() + 2 <= size {
        let room = (size - run.len() - 2).min(100);
        run.extend(Node::octets(&vec![0x30; room - room % 2]).encode());
    }
    run.resize(size, 0x05);
    run
}

/// Runs about as long as the longest element, 65,539 bytes, and longer ones, whole, cut and with bytes turned.
#[test]
fn runs_longer_than_any_element() {
    let mut tally = Tally::default();
    let longest = Node::primitive(0x30, &run_of_size(65_535)).encode();
    assert_eq!(longest.len(), 65_539);
    let sizes = (65_536..=65_544).chain([100_000, 131_077, 131_078, 131_079]);
    let mut runs: Vec<Vec<u8>> = sizes.map(run_of_size).collect();
    runs.push(longest.clone());
    runs.push([&longest[..], &run_of_size(3)[..]].concat());
    runs.push([&run_of_size(3)[..], &longest[..]].concat());
    runs.push([&longest[..], &longest[..]].concat());
    for run in runs {
        assert_eq!(tally.run(&run), None);
        for cut in [1, 2, 3, run.len() - 2] {
            let _ = tally.run(&run[..run.len() - cut]);
        }
        // tags and lengths of every sixth element, which are 102 bytes long, with or without three bytes before them
        let heads = (0..run.len() - 612).step_by(612);
        let places = heads.flat_map(|at| [at, at + 1, at + 3, at + 4]);
        for at in places.chain(run.len() - 40..run.len()) {
            for byte in [0x00, 0x05, 0x1F, 0x30, 0x80, 0xFF] {
                let mut turned = run.clone();
                turned[at] = byte;
                let _ = tally.run(&turned);
            }
        }
    }
    tally.report("runs longer than any element");
}

#[test]
fn every_length_form_at_every_element() {
    let mut tally = Tally::default();
    for base in bases() {
        for number in 0..base.count() {
            let mut edited = base.clone();
            let len = edited.nth(number).0.content_len();
            let wrong = (0..=len + 6).map(LengthForm::Wrong);
            for form in LENGTH_FORMS.into_iter().chain(wrong) {
                edited.nth(number).0.length = form;
                let _ = tally.message(&edited.encode());
            }
        }
    }
    tally.report("every length form at every element");
}
