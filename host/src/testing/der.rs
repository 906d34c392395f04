//! A small DER writer: elements as a tree, encoded on demand. Tags, contents
//! and length forms may be anything, so that bad encodings can be written too.

mod length;

pub use length::{LengthForm, LENGTH_FORMS};

/// An element to be written.
#[derive(Clone, Debug, PartialEq, Eq)]
pub struct Node {
    pub tag: u8,
    pub length: LengthForm,
    pub content: Content,
}

/// What is inside an element.
#[derive(Clone, Debug, PartialEq, Eq)]
pub enum Content {
    Bytes(Vec<u8>),
    Elements(Vec<Node>),
}

impl Node {
    pub fn primitive(tag: u8, bytes: &[u8]) -> Node {
        Node {
            tag,
            length: LengthForm::Shortest,
            content: Content::Bytes(bytes.to_vec()),
        }
    }

    pub fn constructed(tag: u8, elements: Vec<Node>) -> Node {
        Node {
            tag,
            length: LengthForm::Shortest,
            content: Content::Elements(elements),
        }
    }

    pub fn sequence(elements: Vec<Node>) -> Node {
        Node::constructed(0x30, elements)
    }

    pub fn explicit(number: u8, element: Node) -> Node {
        Node::constructed(0xA0 + number, vec![element])
    }

    pub fn boolean(value: bool) -> Node {
        Node::primitive(0x01, if value { &[0xFF] } else { &[0x00] })
    }

    /// An INTEGER in its shortest form.
    pub fn integer(value: i64) -> Node {
        let bytes = value.to_be_bytes();
        let mut start = 0;
        while start < 7 && redundant(bytes[start], bytes[start + 1]) {
            start += 1;
        }
        Node::primitive(0x02, &bytes[start..])
    }

    pub fn bits(unused: u8, data: &[u8]) -> Node {
        let mut content = vec![unused];
        content.extend_from_slice(data);
        Node {
            tag: 0x03,
            length: LengthForm::Shortest,
            content: Content::Bytes(content),
        }
    }

    pub fn octets(bytes: &[u8]) -> Node {
        Node::primitive(0x04, bytes)
    }

    pub fn null() -> Node {
        Node::primitive(0x05, &[])
    }

    pub fn oid(bytes: &[u8]) -> Node {
        Node::primitive(0x06, bytes)
    }

    pub fn utf8(text: &str) -> Node {
        Node::primitive(0x0C, text.as_bytes())
    }

    pub fn time(text: &str) -> Node {
        Node::primitive(0x18, text.as_bytes())
    }

    /// The same element with its length in another form.
    pub fn with_length(mut self, length: LengthForm) -> Node {
        self.length = length;
        self
    }

    pub fn encode(&self) -> Vec<u8> {
        let mut out = Vec::new();
        self.write(&mut out);
        out
    }

    /// Appends the encoded element.
    pub fn write(&self, out: &mut Vec<u8>) {
        out.push(self.tag);
        self.length.write(self.content_len(), out);
        match &self.content {
            Content::Bytes(bytes) => out.extend_from_slice(bytes),
            Content::Elements(elements) => elements.iter().for_each(|element| element.write(out)),
        }
    }

    pub fn content_len(&self) -> usize {
        match &self.content {
            Content::Bytes(bytes) => bytes.len(),
            Content::Elements(elements) => elements.iter().map(Node::encoded_len).sum(),
        }
    }

    pub fn encoded_len(&self) -> usize {
        let length = self.content_len();
        1 + self.length.size(length) + length
    }

    /// This element's children; none in a primitive.
    pub fn children(&self) -> &[Node] {
        match &self.content {
            Content::Bytes(_) => &[],
            Content::Elements(elements) => elements,
        }
    }

    pub fn children_mut(&mut self) -> Option<&mut Vec<Node>> {
        match &mut self.content {
            Content::Bytes(_) => None,
            Content::Elements(elements) => Some(elements),
        }
    }

    /// How many elements there are, this one and all inside it.
    pub fn count(&self) -> usize {
        1 + self.children().iter().map(Node::count).sum::<usize>()
    }

    /// Where the element reached by these child numbers is written: its offset,
    /// the offset of its content and the offset of its end.
    pub fn place(&self, path: &[usize]) -> Option<[usize; 3]> {
        let mut node = self;
        let mut offset = 0;
        for &number in path {
            let before = node.children().get(..number)?;
            offset += node.encoded_len() - node.content_len();
            offset += before.iter().map(Node::encoded_len).sum::<usize>();
            node = node.children().get(number)?;
        }
        let end = offset + node.encoded_len();
        Some([offset, end - node.content_len(), end])
    }

    /// Element `number` in the order of the bytes, this one being 0, and its
    /// depth, this one's being 1. The number has to be below [`Node::count`].
    pub fn nth(&mut self, number: usize) -> (&mut Node, usize) {
        let mut left = number;
        self.descend(&mut left, 1)
            .expect("the number is below the count")
    }

    /// A copy in which element `number` is changed.
    pub fn edited(&self, number: usize, change: impl FnOnce(&mut Node)) -> Node {
        let mut copy = self.clone();
        change(copy.nth(number).0);
        copy
    }

    fn descend(&mut self, left: &mut usize, depth: usize) -> Option<(&mut Node, usize)> {
        if *left == 0 {
            return Some((self, depth));
        }
        *left -= 1;
        self.children_mut()?
            .iter_mut()
            .find_map(|child| child.descend(left, depth + 1))
    }
}

/// Whether the first byte of an INTEGER says nothing the second does not.
fn redundant(first: u8, second: u8) -> bool {
    (first == 0x00 && second < 0x80) || (first == 0xFF && second >= 0x80)
}

/// The innermost element inside `levels` SEQUENCEs.
pub fn nest(levels: usize, innermost: Node) -> Node {
    (0..levels).fold(innermost, |inside, _| Node::sequence(vec![inside]))
}

/// Takes sound DER apart into a tree, for messages that come as bytes.
pub fn parse(bytes: &[u8]) -> Option<Vec<Node>> {
    let mut rest = bytes;
    let mut nodes = Vec::new();
    while let [tag, first, after @ ..] = rest {
        let long = if *first < 0x80 {
            0
        } else {
            usize::from(*first & 0x7F)
        };
        let length = if long == 0 {
            usize::from(*first)
        } else {
            after
                .get(..long)?
                .iter()
                .fold(0, |length, byte| length << 8 | usize::from(*byte))
        };
        let content = after.get(long..)?.get(..length)?;
        rest = &after[long + length..];
        nodes.push(Node {
            tag: *tag,
            length: LengthForm::Shortest,
            content: if tag & 0x20 == 0 {
                Content::Bytes(content.to_vec())
            } else {
                Content::Elements(parse(content)?)
            },
        });
    }
    rest.is_empty().then_some(nodes)
}

/// Bytes from hexadecimal digits; blanks are skipped.
pub fn hex(digits: &str) -> Vec<u8> {
    let digits: Vec<u8> = digits
        .chars()
        .filter_map(|digit| digit.to_digit(16))
        .map(|digit| digit as u8)
        .collect();
    digits
        .chunks(2)
        .map(|pair| pair.iter().fold(0, |byte, digit| byte << 4 | digit))
        .collect()
}

/// Hexadecimal digits of bytes, for reports.
pub fn show(bytes: &[u8]) -> String {
    bytes.iter().map(|byte| format!("{byte:02X}")).collect()
}
