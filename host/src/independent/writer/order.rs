//! What a message is written from, taken from its bytes and numbers.

use crate::limits::{HASH_BYTES, ID_BYTES, NONCE_BYTES};

pub const ORDER_BYTES: usize = 1 + ID_BYTES + 2 * NONCE_BYTES + 3 + 4 + HASH_BYTES + 1 + 4;

/// The byte for no failure bit.
const NO_BIT: u8 = 255;

/// An order. What its flags say is absent has its bytes all the same.
pub struct Order<'a> {
    pub kind: u8,
    pub id: &'a [u8],
    pub sender_nonce: &'a [u8],
    pub has_recip_nonce: bool,
    pub recip_nonce: &'a [u8],
    pub has_status: bool,
    pub status: u32,
    pub hash: &'a [u8],
    pub failure: Option<u8>,
    pub has_number: bool,
    pub number: u32,
}

impl<'a> Order<'a> {
    /// Fields side by side; a flag is set by 1 and by no other byte.
    pub fn of(bytes: &'a [u8; ORDER_BYTES]) -> Order<'a> {
        let mut rest = &bytes[..];
        let mut next = |len: usize| {
            let (field, after) = rest.split_at(len);
            rest = after;
            field
        };
        Order {
            kind: next(1)[0],
            id: next(ID_BYTES),
            sender_nonce: next(NONCE_BYTES),
            has_recip_nonce: next(1)[0] == 1,
            recip_nonce: next(NONCE_BYTES),
            has_status: next(1)[0] == 1,
            status: number(next(4)),
            hash: next(HASH_BYTES),
            failure: Some(next(1)[0]).filter(|bit| *bit != NO_BIT),
            has_number: next(1)[0] == 1,
            number: number(next(4)),
        }
    }
}

fn number(bytes: &[u8]) -> u32 {
    bytes
        .iter()
        .fold(0, |number, byte| number << 8 | u32::from(*byte))
}

/// What is given beside the order, in the order of the library's list.
#[derive(Clone, Copy, Debug, PartialEq, Eq, PartialOrd, Ord)]
pub enum Part {
    Sender,
    Recipient,
    MessageTime,
    ProtectionAlg,
    SenderKid,
    RecipKid,
    FreeText,
    GeneralInfo,
    Protection,
    Request,
    Certificate,
}

/// All of them.
pub const PARTS: [Part; 11] = [
    Part::Sender,
    Part::Recipient,
    Part::MessageTime,
    Part::ProtectionAlg,
    Part::SenderKid,
    Part::RecipKid,
    Part::FreeText,
    Part::GeneralInfo,
    Part::Protection,
    Part::Request,
    Part::Certificate,
];

impl Part {
    /// Where it starts in the source, and how long it is.
    pub fn span(self, given: &[u64; 2 * PARTS.len()]) -> [u64; 2] {
        let at = 2 * self as usize;
        [given[at], given[at + 1]]
    }
}

/// The bytes of the parts that are there.
pub struct Parts<'a>([Option<&'a [u8]>; PARTS.len()]);

impl<'a> Parts<'a> {
    /// A part that starts at 0 is absent; of one that reaches outside, as much is
    /// there as the source has.
    pub fn of(given: &[u64; 2 * PARTS.len()], source: &'a [u8]) -> Parts<'a> {
        let inside = |at: u64| usize::try_from(at).map_or(source.len(), |at| at.min(source.len()));
        Parts(PARTS.map(|part| {
            let [start, len] = part.span(given);
            (start > 0).then(|| &source[inside(start)..inside(start.saturating_add(len))])
        }))
    }

    pub fn get(&self, part: Part) -> Option<&'a [u8]> {
        self.0[part as usize]
    }
}
