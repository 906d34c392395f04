//! The four points of "DER as we take it", each for one element alone: its tag,
//! its length, its form and its content.

const BOOLEAN: u8 = 0x01;
pub const INTEGER: u8 = 0x02;
pub const BIT_STRING: u8 = 0x03;
pub const OCTET_STRING: u8 = 0x04;
pub const NULL: u8 = 0x05;
pub const OBJECT_IDENTIFIER: u8 = 0x06;
pub const UTF8_STRING: u8 = 0x0C;
pub const GENERALIZED_TIME: u8 = 0x18;
pub const SEQUENCE: u8 = 0x30;
const SET: u8 = 0x31;

/// What "DER as we take it" says of a tag byte.
#[derive(Clone, Copy, PartialEq, Eq)]
pub enum Shape {
    /// Point 1: low five bits 31, or universal tag 0.
    BadTag,
    /// Point 3: a universal tag in the wrong form.
    BadForm,
    /// Holds whole elements.
    Constructed,
    /// Point 4: primitives with a rule for their content.
    Boolean,
    Integer,
    BitString,
    Null,
    ObjectIdentifier,
    /// Point 4: "Other primitives are opaque."
    Opaque,
}

#[inline]
pub const fn shape(tag: u8) -> Shape {
    match tag {
        0x00 | 0x20 => Shape::BadTag,
        _ if tag & 0x1F == 0x1F => Shape::BadTag,
        SEQUENCE | SET => Shape::Constructed,
        0x10 | 0x11 | 0x21..=0x3E => Shape::BadForm,
        BOOLEAN => Shape::Boolean,
        INTEGER => Shape::Integer,
        BIT_STRING => Shape::BitString,
        NULL => Shape::Null,
        OBJECT_IDENTIFIER => Shape::ObjectIdentifier,
        _ if tag & 0x20 != 0 => Shape::Constructed,
        _ => Shape::Opaque,
    }
}

/// The shapes of all tag bytes, worked out beforehand.
pub static SHAPES: [Shape; 256] = {
    let mut shapes = [Shape::BadTag; 256];
    let mut tag = 0;
    while tag < shapes.len() {
        shapes[tag] = shape(tag as u8);
        tag += 1;
    }
    shapes
};

/// Point 2: a length below 128 in one byte, 128 to 255 as `81 xx`, 256 up as
/// `82 xx xx`, of an element that lies wholly inside its parent. Gives the
/// message up to the element's end, and where the content starts.
#[inline(always)]
pub fn extent(upto: &[u8], offset: usize) -> Option<(&[u8], usize)> {
    let (inside, length) = match *upto.get(offset + 1)? {
        short @ ..=0x7F => (offset + 2, usize::from(short)),
        0x81 => match *upto.get(offset + 2)? {
            long @ 0x80.. => (offset + 3, usize::from(long)),
            _ => return None,
        },
        0x82 => match *upto.get(offset + 2..offset + 4)? {
            [high @ 0x01..=0xFF, low] => (offset + 4, usize::from(u16::from_be_bytes([high, low]))),
            _ => return None,
        },
        _ => return None,
    };
    Some((upto.get(..inside + length)?, inside))
}

/// Point 4: the contents of five universal primitives.
#[inline(always)]
pub fn content_fits(shape: Shape, content: &[u8]) -> bool {
    match shape {
        Shape::Boolean => matches!(content, [0x00 | 0xFF]),
        Shape::Integer => integer_fits(content),
        Shape::BitString => bit_string_fits(content),
        Shape::Null => content.is_empty(),
        Shape::ObjectIdentifier => object_identifier_fits(content),
        _ => true,
    }
}

/// At least one byte, shortest two's complement: the first nine bits differ.
#[inline(always)]
fn integer_fits(content: &[u8]) -> bool {
    match content {
        [] => false,
        [0x00, second, ..] => *second >= 0x80,
        [0xFF, second, ..] => *second < 0x80,
        _ => true,
    }
}

/// An unused count of 0 to 7, 0 if no data follows; the unused bits are zero.
#[inline(always)]
pub fn bit_string_fits(content: &[u8]) -> bool {
    match content {
        [0] => true,
        [unused @ 0..=7, .., last] => last & ((1 << unused) - 1) == 0,
        _ => false,
    }
}

/// At least one byte, no arc beginning 80, the last byte below 80. Few have a
/// byte 80 at all, so where arcs begin is seldom looked at.
#[inline(always)]
fn object_identifier_fits(content: &[u8]) -> bool {
    let suspect = content
        .iter()
        .fold(false, |any, &byte| any | (byte == 0x80));
    match content {
        [.., 0x00..=0x7F] => !suspect || no_arc_begins_80(content),
        _ => false,
    }
}

#[cold]
fn no_arc_begins_80(content: &[u8]) -> bool {
    let mut before = 0x00;
    content.iter().all(|&byte| {
        let begins = before < 0x80;
        before = byte;
        !(begins && byte == 0x80)
    })
}
