//! The plain data both readers answer with, so that their answers can be
//! compared field by field.

/// A part of the message: where it starts and how long it is. An absent part
/// is `(0, 0)`; a present one never starts at 0, where the message itself does.
#[derive(Clone, Copy, Debug, Default, PartialEq, Eq)]
pub struct Span {
    pub start: usize,
    pub len: usize,
}

/// A refused message: number 1 (size) or 2 (not DER or not the grammar). For
/// number 2 the lowest offset at fault and the lowest rule broken there: 1 tag,
/// 2 length, 3 primitive or constructed form and depth, 4 content, 5 grammar.
/// The offset lies in the message or, by rule 5 only, at its end. For number 1
/// both are 0.
#[derive(Clone, Copy, Debug, PartialEq, Eq)]
pub struct Refused {
    pub number: u8,
    pub offset: usize,
    pub rule: u8,
}

/// Everything a clean reading finds. "Element" means tag and length included,
/// "content" the bytes inside the primitive. The fields from `number` on
/// describe the one entry and are zero unless there is exactly one (an error
/// message, which has no entries, still gives its status).
#[derive(Clone, Copy, Debug, Default, PartialEq, Eq)]
pub struct Reading {
    /// The body's choice, 0 (ir) to 26 (pollRep).
    pub kind: u8,
    /// pvno as a 32-bit two's complement pattern.
    pub version: u32,
    /// Request messages, responses or certificate statuses; else 0.
    pub entries: usize,
    /// Element.
    pub header: Span,
    /// Element.
    pub body: Span,
    /// The whole `[0]` element.
    pub protection: Span,
    /// The whole `[1]` element.
    pub extra_certs: Span,
    /// Element.
    pub sender: Span,
    /// Element.
    pub recipient: Span,
    /// Content of the GeneralizedTime.
    pub message_time: Span,
    /// The AlgorithmIdentifier element inside `[1]`.
    pub protection_alg: Span,
    /// Content.
    pub sender_kid: Span,
    /// Content.
    pub recip_kid: Span,
    /// Content.
    pub transaction_id: Span,
    /// Content.
    pub sender_nonce: Span,
    /// Content.
    pub recip_nonce: Span,
    /// The SEQUENCE element inside `[7]`.
    pub free_text: Span,
    /// The SEQUENCE element inside `[8]`.
    pub general_info: Span,
    /// The SEQUENCE element inside caPubs' `[1]`, whatever the entries.
    pub ca_pubs: Span,
    /// certReqId as a 32-bit two's complement pattern.
    pub number: u32,
    /// Whether there is status info.
    pub has_status: bool,
    /// PKIStatus as a 32-bit two's complement pattern.
    pub status: u32,
    /// Content.
    pub cert_hash: Span,
    /// The AlgorithmIdentifier element inside hashAlg's `[0]`.
    pub hash_alg: Span,
    /// The certificate element inside the key pair's first `[0]`.
    pub certificate: Span,
    /// The request message element; in p10cr the one element of the body.
    pub request: Span,
    /// Content length of the protected part: header and body together.
    pub protected_len: usize,
}
