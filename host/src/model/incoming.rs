//! A message that has come in, as far as both ends look at it: rows 1 to 6.

use super::{refusal, refuse_if, request_number};
use crate::ends::{Nonce, TransactionId};
use crate::independent;
use crate::refusal::Refusal;
use crate::types::{Reading, Span};

/// A message that reads, has a version of ours, an id and a senderNonce.
pub struct Incoming<'a> {
    pub kind: u8,
    pub version: i32,
    pub id: TransactionId,
    pub sender_nonce: Nonce,
    pub recip_nonce: Option<&'a [u8]>,
    pub entries: usize,
    /// certReqId of the one entry.
    pub number: i32,
    /// The status of the one entry or of the error.
    pub status: Option<i32>,
    pub cert_hash: &'a [u8],
    pub hash_alg: bool,
    /// Whether the one response brings a certificate that is not encrypted.
    pub certificate: bool,
    protected: bool,
}

impl<'a> Incoming<'a> {
    /// Rows 1 to 5, after which there is an id and a nonce to answer with.
    pub fn read(bytes: &'a [u8]) -> Result<Self, Refusal> {
        let reading = independent::read(bytes).map_err(|fault| Refusal {
            fault: Some(fault),
            ..refusal(fault.number)
        })?;
        let version = reading.version as i32;
        refuse_if(version != 2 && version != 3, 3)?;
        let id = sixteen(part(bytes, reading.transaction_id)).ok_or(refusal(4))?;
        let sender_nonce = sixteen(part(bytes, reading.sender_nonce)).ok_or(refusal(5))?;
        Ok(Incoming {
            kind: reading.kind,
            version,
            id: TransactionId(id),
            sender_nonce: Nonce(sender_nonce),
            recip_nonce: part(bytes, reading.recip_nonce),
            entries: reading.entries,
            number: reading.number as i32,
            status: reading.has_status.then_some(reading.status as i32),
            cert_hash: part(bytes, reading.cert_hash).unwrap_or_default(),
            hash_alg: present(reading.hash_alg),
            certificate: present(reading.certificate),
            protected: is_protected(&reading),
        })
    }

    /// Row 6.
    pub fn check_protected(&self) -> Result<(), Refusal> {
        refuse_if(!self.protected, 6)
    }

    /// Whether it answers the message that carried this nonce.
    pub fn answers(&self, nonce: Nonce) -> bool {
        self.recip_nonce == Some(&nonce.0)
    }

    /// Rows 15 and 16, for a record of this kind.
    pub fn check_one_entry(&self, kind: u8) -> Result<(), Refusal> {
        refuse_if(self.entries != 1, 15)?;
        refuse_if(self.number != request_number(kind), 16)
    }
}

/// "protectionAlg or protection absent": both have to be there.
fn is_protected(reading: &Reading) -> bool {
    present(reading.protection_alg) && present(reading.protection)
}

fn present(span: Span) -> bool {
    span != Span::default()
}

fn part(bytes: &[u8], span: Span) -> Option<&[u8]> {
    if present(span) {
        bytes.get(span.start..)?.get(..span.len)
    } else {
        None
    }
}

fn sixteen(part: Option<&[u8]>) -> Option<[u8; 16]> {
    part?.try_into().ok()
}
