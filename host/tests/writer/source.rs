//! A source drawn at random: parts of every sort one after the other, those that
//! fit their place and others.

use duskstall_host::independent::writer::{Part, PARTS};
use duskstall_host::testing::der::{nest, Node};
use duskstall_host::testing::random::{self, Random};
use duskstall_host::MESSAGE_LIMIT;

/// Parts of each sort in a source.
const EACH: usize = 3;

/// Parts by their sort, as start and length.
type Spans = [Vec<[u64; 2]>; PARTS.len()];

pub struct Source {
    pub bytes: Vec<u8>,
    pub fitting: Spans,
    /// Most of them do not fit.
    pub others: Spans,
    /// Requests that only a p10cr can have.
    pub generic: Vec<[u64; 2]>,
}

impl Source {
    pub fn new(random: &mut Random) -> Source {
        let mut source = Source {
            bytes: vec![random.byte()],
            fitting: Default::default(),
            others: Default::default(),
            generic: Vec::new(),
        };
        for part in PARTS {
            for _ in 0..EACH {
                let fitting = fitting(part, random);
                let other = other(part, fitting.clone(), random);
                let spans = [fitting.encode(), other].map(|bytes| source.add(part, bytes));
                source.fitting[part as usize].push(spans[0]);
                source.others[part as usize].push(spans[1]);
            }
        }
        let generic = random::generic(random, 3).encode();
        let deepest = nest(13, Node::null()).encode();
        source.generic = [generic, deepest]
            .map(|bytes| source.add(Part::Request, bytes))
            .into();
        if random.once_in(64) {
            let long = random.bytes(MESSAGE_LIMIT + 600);
            source.bytes.extend(long);
        }
        source
    }

    /// Of some parts only the content is given; their drawn elements are short.
    fn add(&mut self, part: Part, element: Vec<u8>) -> [u64; 2] {
        let bytes = match part {
            Part::MessageTime | Part::SenderKid | Part::RecipKid | Part::Protection => {
                element.get(2..).unwrap_or_default()
            }
            _ => &element,
        };
        let start = self.bytes.len() as u64;
        self.bytes.extend_from_slice(bytes);
        [start, bytes.len() as u64]
    }

    /// Whether there is enough of it for a message that is too long.
    pub fn is_long(&self) -> bool {
        self.bytes.len() > MESSAGE_LIMIT
    }
}

/// An element that fits; of parts that are given by their content, around it.
fn fitting(part: Part, random: &mut Random) -> Node {
    match part {
        Part::Sender | Part::Recipient => random::general_name(random),
        Part::ProtectionAlg => random::algorithm(random),
        Part::FreeText => random::free_text(random),
        Part::GeneralInfo => random::general_infos(random),
        Part::Request => random::request_message(random),
        Part::Certificate => random::certificate(random),
        Part::Protection => Node::bits(0, &random.bytes(32)),
        Part::MessageTime => Node::time("20261115120000Z"),
        Part::SenderKid | Part::RecipKid => {
            let len = random.below(24);
            Node::octets(&random.bytes(len))
        }
    }
}

/// Damaged, deep, doubled, or of another sort.
fn other(part: Part, mut fitting: Node, random: &mut Random) -> Vec<u8> {
    match random.below(8) {
        0 => {
            let mut bytes = fitting.encode();
            random::damage_bytes(&mut bytes, random);
            bytes
        }
        1 => {
            let two = [fitting.encode(), fitting.encode()];
            two.concat()
        }
        2 => {
            let other = *random.pick(&PARTS);
            self::fitting(other, random).encode()
        }
        3 | 4 => deep(part, random).encode(),
        _ => {
            random::damage_elements(&mut fitting, random);
            fitting.encode()
        }
    }
}

/// About as deep as there are levels left at the part's place: 14 in a header,
/// 13 in its fields and for a request, 9 for a certificate.
fn deep(part: Part, random: &mut Random) -> Node {
    let more = random.below(3);
    let oid = Node::oid(&[0x2A]);
    match part {
        Part::Sender | Part::Recipient => Node::explicit(4, nest(11 + more, Node::null())),
        Part::ProtectionAlg => Node::sequence(vec![oid, nest(10 + more, Node::null())]),
        Part::GeneralInfo => {
            let deep = vec![oid, nest(9 + more, Node::null())];
            Node::sequence(vec![Node::sequence(deep)])
        }
        Part::Request => {
            let fields = vec![Node::integer(0), nest(9 + more, Node::null())];
            Node::sequence(vec![Node::sequence(fields)])
        }
        _ => nest(7 + more, Node::null()),
    }
}
