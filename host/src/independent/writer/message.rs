//! The message, put down from its end to its beginning, so that each length is
//! known when it is its turn.

use super::order::{Order, Part, Parts};
use crate::independent::rules::SEQUENCE;
use crate::independent::rules::{BIT_STRING, GENERALIZED_TIME, INTEGER, NULL, OCTET_STRING};
use crate::independent::steps::explicit;

/// Where bytes are put, each before those that are there.
pub trait Sink {
    fn put(&mut self, bytes: &[u8]);
    /// How many there are.
    fn count(&self) -> usize;
}

/// Only counts; parts may overlap, so that their sum may be more than there are
/// addresses.
pub struct Counter(pub usize);

impl Sink for Counter {
    fn put(&mut self, bytes: &[u8]) {
        self.0 = self.0.saturating_add(bytes.len());
    }

    fn count(&self) -> usize {
        self.0
    }
}

/// Puts them into a place that has room for all.
pub struct Placed<'a> {
    place: &'a mut [u8],
    at: usize,
}

impl<'a> Placed<'a> {
    pub fn before_the_end(place: &'a mut [u8]) -> Placed<'a> {
        let at = place.len();
        Placed { place, at }
    }
}

impl Sink for Placed<'_> {
    fn put(&mut self, bytes: &[u8]) {
        let end = self.at;
        self.at -= bytes.len();
        self.place[self.at..end].copy_from_slice(bytes);
    }

    fn count(&self) -> usize {
        self.place.len() - self.at
    }
}

/// An element around what `content` puts.
fn element<S: Sink>(to: &mut S, tag: u8, content: impl FnOnce(&mut S)) {
    let before = to.count();
    content(to);
    let len = to.count() - before;
    // Two bytes are enough for every message that is not over the limit.
    let [high, low] = (len as u16).to_be_bytes();
    match len {
        0..=0x7F => to.put(&[tag, low]),
        0x80..=0xFF => to.put(&[tag, 0x81, low]),
        _ => to.put(&[tag, 0x82, high, low]),
    }
}

fn primitive<S: Sink>(to: &mut S, tag: u8, content: &[u8]) {
    element(to, tag, |to| to.put(content));
}

/// An INTEGER of 32 bits in two's complement, in its shortest form.
fn integer<S: Sink>(to: &mut S, value: u32) {
    let value = value as i32;
    let bytes = value.to_be_bytes();
    let unneeded = match value {
        -0x80..=0x7F => 3,
        -0x8000..=0x7FFF => 2,
        -0x80_0000..=0x7F_FFFF => 1,
        _ => 0,
    };
    primitive(to, INTEGER, &bytes[unneeded..]);
}

/// A primitive under an explicit tag, if its content is there.
fn tagged_primitive<S: Sink>(to: &mut S, number: u8, tag: u8, content: Option<&[u8]>) {
    if let Some(content) = content {
        element(to, explicit(number), |to| primitive(to, tag, content));
    }
}

/// An element under an explicit tag, if it is there.
fn tagged<S: Sink>(to: &mut S, number: u8, whole: Option<&[u8]>) {
    if let Some(whole) = whole {
        element(to, explicit(number), |to| to.put(whole));
    }
}

/// PKIFailureInfo with one bit, which is the last one.
fn fail_info<S: Sink>(to: &mut S, bit: u8) {
    element(to, BIT_STRING, |to| {
        to.put(&[0x80 >> (bit % 8)]);
        to.put(&[0; u8::MAX as usize / 8][..usize::from(bit / 8)]);
        to.put(&[7 - bit % 8]);
    });
}

fn status_info<S: Sink>(to: &mut S, status: u32, failure: Option<u8>) {
    element(to, SEQUENCE, |to| {
        if let Some(bit) = failure {
            fail_info(to, bit);
        }
        integer(to, status);
    });
}

/// All that a message says.
pub struct Message<'a> {
    pub order: Order<'a>,
    pub version: u32,
    pub parts: Parts<'a>,
}

impl Message<'_> {
    pub fn put<S: Sink>(&self, to: &mut S) {
        element(to, SEQUENCE, |to| {
            tagged_primitive(to, 0, BIT_STRING, self.parts.get(Part::Protection));
            self.body(to);
            element(to, SEQUENCE, |to| self.header(to));
        });
    }

    fn header<S: Sink>(&self, to: &mut S) {
        let (order, part) = (&self.order, |part| self.parts.get(part));
        let recip_nonce = order.has_recip_nonce.then_some(order.recip_nonce);
        tagged(to, 8, part(Part::GeneralInfo));
        tagged(to, 7, part(Part::FreeText));
        tagged_primitive(to, 6, OCTET_STRING, recip_nonce);
        tagged_primitive(to, 5, OCTET_STRING, Some(order.sender_nonce));
        tagged_primitive(to, 4, OCTET_STRING, Some(order.id));
        tagged_primitive(to, 3, OCTET_STRING, part(Part::RecipKid));
        tagged_primitive(to, 2, OCTET_STRING, part(Part::SenderKid));
        tagged(to, 1, part(Part::ProtectionAlg));
        tagged_primitive(to, 0, GENERALIZED_TIME, part(Part::MessageTime));
        to.put(part(Part::Recipient).unwrap_or_default());
        to.put(part(Part::Sender).unwrap_or_default());
        integer(to, self.version);
    }

    /// An order of no kind that is written has a length, too: pkiconf's.
    fn body<S: Sink>(&self, to: &mut S) {
        let (order, request) = (&self.order, self.parts.get(Part::Request));
        let request = request.unwrap_or_default();
        element(to, explicit(0).wrapping_add(order.kind), |to| {
            match order.kind {
                0 | 2 | 7 => primitive(to, SEQUENCE, request),
                4 => to.put(request),
                1 | 3 | 8 => element(to, SEQUENCE, |to| {
                    element(to, SEQUENCE, |to| {
                        element(to, SEQUENCE, |to| self.response(to))
                    })
                }),
                23 => element(to, SEQUENCE, |to| {
                    status_info(to, order.status, order.failure)
                }),
                24 => element(to, SEQUENCE, |to| {
                    element(to, SEQUENCE, |to| self.cert_status(to))
                }),
                _ => primitive(to, NULL, &[]),
            }
        });
    }

    /// The certificate is in a key pair, under the choice's tag.
    fn response<S: Sink>(&self, to: &mut S) {
        if let Some(certificate) = self.parts.get(Part::Certificate) {
            element(to, SEQUENCE, |to| tagged(to, 0, Some(certificate)));
        }
        status_info(to, self.order.status, None);
        integer(to, self.order.number);
    }

    /// "A certConf's status 0 being left out."
    fn cert_status<S: Sink>(&self, to: &mut S) {
        if self.order.status != 0 {
            status_info(to, self.order.status, None);
        }
        integer(to, self.order.number);
        primitive(to, OCTET_STRING, self.order.hash);
    }
}
