//! Messages of another implementation, with what the library reads in them.

use super::der::Node;
use super::sha256::sha256;
use crate::{compiled, independent};
use crate::{CertHash, FreshNonce, Given, Nonce, Outgoing, Reading, Span, TransactionId};

/// The content of a sound element.
fn inside(element: &[u8]) -> &[u8] {
    match element {
        [_, 0x81, _, content @ ..] | [_, 0x82, _, _, content @ ..] => content,
        [_, _, content @ ..] => content,
        _ => &[],
    }
}

/// A message and its reading by the library.
pub struct Received {
    pub bytes: Vec<u8>,
    pub reading: Reading,
}

impl Received {
    /// Both readers have to take it, and to find the same in it.
    pub fn read(bytes: Vec<u8>) -> Received {
        let reading = compiled::read(&bytes).expect("the message reads clean");
        assert_eq!(independent::read(&bytes), Ok(reading));
        Received { bytes, reading }
    }

    /// The bytes of a part of it; none if it is absent.
    pub fn part(&self, span: Span) -> &[u8] {
        &self.bytes[span.start..][..span.len]
    }

    /// What its protection is verified by: the ProtectedPart in DER (RFC 9810,
    /// 5.1.3), the SEQUENCE of header and body, which stand side by side in it.
    pub fn protected_part(&self) -> Vec<u8> {
        let content = &self.bytes[self.reading.header.start..][..self.reading.protected_len];
        Node::primitive(0x30, content).encode()
    }

    fn sixteen(&self, span: Span) -> [u8; 16] {
        self.part(span).try_into().expect("it has 16 bytes")
    }

    pub fn id(&self) -> TransactionId {
        TransactionId(self.sixteen(self.reading.transaction_id))
    }

    pub fn sender_nonce(&self) -> Nonce {
        Nonce(self.sixteen(self.reading.sender_nonce))
    }

    /// The same, as its sender drew it: for an end of ours in the sender's place.
    pub fn drawn_nonce(&self) -> FreshNonce {
        FreshNonce(self.sixteen(self.reading.sender_nonce))
    }

    /// The hash of the plain certificate in a response, if there is one.
    pub fn issued(&self) -> Option<CertHash> {
        let certificate = self.part(self.reading.certificate);
        (!certificate.is_empty()).then(|| CertHash(sha256(certificate)))
    }

    /// What an end of ours has to send where the other implementation sent this
    /// message. In a certConf no status counts as 0 (01, "issued").
    pub fn as_outgoing(&self) -> Outgoing {
        let reading = &self.reading;
        let answers = reading.recip_nonce.start > 0;
        let has_status = reading.has_status || reading.kind == 24;
        let has_number = matches!(reading.kind, 1 | 3 | 8 | 24);
        let hash = self.part(reading.cert_hash);
        Outgoing {
            kind: reading.kind,
            id: self.id(),
            sender_nonce: self.sender_nonce(),
            recip_nonce: answers.then(|| Nonce(self.sixteen(reading.recip_nonce))),
            status: has_status.then_some(reading.status),
            hash: hash.try_into().ok().map(CertHash),
            failure: None,
            number: has_number.then_some(reading.number as i32),
        }
    }

    /// What a host of ours has to give where the other implementation sent this
    /// message. The protection, `[0]` around a BIT STRING, is its last part or
    /// stands before extraCerts.
    pub fn as_given(&self) -> Given<'_> {
        let reading = &self.reading;
        let given = |span: Span| (span.start > 0).then(|| self.part(span));
        Given {
            message_time: given(reading.message_time),
            protection_alg: given(reading.protection_alg),
            sender_kid: given(reading.sender_kid),
            recip_kid: given(reading.recip_kid),
            free_text: given(reading.free_text),
            general_info: given(reading.general_info),
            protection: given(reading.protection).map(|whole| inside(inside(whole))),
            request: given(reading.request),
            certificate: given(reading.certificate),
            ..Given::new(
                reading.version as i32,
                self.part(reading.sender),
                self.part(reading.recipient),
            )
        }
    }

    /// A copy with the last byte of a part changed.
    pub fn altered(&self, part: Span) -> Received {
        let mut bytes = self.bytes.clone();
        bytes[part.start + part.len - 1] ^= 1;
        Received::read(bytes)
    }
}
