//! The plain data that the registrar and the end entities are asked with and
//! answer with, the same for the compiled library and for the model.

use crate::answers::{self, OUTGOING_BYTES};
use crate::limits::{FRESH_NONCE_BYTES, HASH_BYTES, ID_BYTES, NONCE_BYTES};
use crate::refusal::Refusal;
use std::fmt;

/// A transactionID.
#[derive(Clone, Copy, Default, PartialEq, Eq, PartialOrd, Ord, Hash)]
pub struct TransactionId(pub [u8; ID_BYTES]);

/// A senderNonce or recipNonce, of a message that came or of one to be sent.
#[derive(Clone, Copy, Default, PartialEq, Eq, PartialOrd, Ord, Hash)]
pub struct Nonce(pub [u8; NONCE_BYTES]);

/// 16 bytes that the host draws for a nonce of its own, never twice.
#[derive(Clone, Copy, PartialEq, Eq, PartialOrd, Ord, Hash)]
pub struct FreshNonce(pub [u8; FRESH_NONCE_BYTES]);

/// As it is sent and kept.
impl From<FreshNonce> for Nonce {
    fn from(fresh: FreshNonce) -> Nonce {
        Nonce(fresh.0)
    }
}

/// The hash of a certificate, as a certConf names it.
#[derive(Clone, Copy, Default, PartialEq, Eq, PartialOrd, Ord, Hash)]
pub struct CertHash(pub [u8; HASH_BYTES]);

/// The number of a board.
#[derive(Clone, Copy, Debug, Default, PartialEq, Eq, PartialOrd, Ord, Hash)]
pub struct Board(pub u16);

/// A place in the registrar's transaction table, from 0 and below
/// [`SLOTS`](crate::SLOTS).
#[derive(Clone, Copy, Debug, PartialEq, Eq, PartialOrd, Ord, Hash)]
pub struct Slot(pub usize);

/// What the host found of a message's protection, for the registrar: bad, or
/// good with the key of this board.
#[derive(Clone, Copy, Debug, PartialEq, Eq)]
pub enum Verdict {
    Bad,
    Good(Board),
}

/// What a board's host makes of the certificate in a response: whether it
/// accepts it, and its hash. Used only by a response that brings one.
#[derive(Clone, Copy, Debug, PartialEq, Eq)]
pub struct Decision {
    pub accept: bool,
    pub hash: CertHash,
}

/// How a call ended.
#[derive(Clone, Copy, Debug, PartialEq, Eq)]
pub enum Outcome {
    /// It moved the state as the rules say.
    Done,
    /// A certConf repeated: nothing changed, and a new pkiconf goes out.
    Again,
    /// Nothing changed.
    Refused(Refusal),
}

impl Outcome {
    /// The refusal, if it is one.
    pub fn refusal(self) -> Option<Refusal> {
        match self {
            Outcome::Refused(refusal) => Some(refusal),
            Outcome::Done | Outcome::Again => None,
        }
    }
}

/// A message that the host is to protect and send; [`write()`](crate::write())
/// writes it.
#[derive(Clone, Copy, Debug, PartialEq, Eq)]
pub struct Outgoing {
    /// The body's choice: 0 (ir) to 24 (certConf).
    pub kind: u8,
    pub id: TransactionId,
    pub sender_nonce: Nonce,
    /// Absent in a request only.
    pub recip_nonce: Option<Nonce>,
    /// PKIStatus, in a response, a certConf and an error.
    pub status: Option<u32>,
    /// In a certConf.
    pub hash: Option<CertHash>,
    /// The PKIFailureInfo bit, in an error.
    pub failure: Option<u8>,
    /// certReqId, in a response and a certConf: 0, or -1 where the enrolment is
    /// by p10cr.
    pub number: Option<i32>,
}

impl Outgoing {
    /// The bytes by which the library gives it to the host, and is given it to
    /// write the message.
    pub fn to_bytes(&self) -> [u8; OUTGOING_BYTES] {
        answers::outgoing_bytes(self)
    }
}

/// The registrar's answer.
#[derive(Clone, Copy, Debug, PartialEq, Eq)]
pub struct RegistrarAnswer {
    pub outcome: Outcome,
    /// Where the transaction is that the call was about; none if refused.
    pub slot: Option<Slot>,
    pub outgoing: Option<Outgoing>,
}

/// An end entity's answer.
#[derive(Clone, Copy, Debug, PartialEq, Eq)]
pub struct EndEntityAnswer {
    pub outcome: Outcome,
    pub outgoing: Option<Outgoing>,
}

fn write_hex(bytes: &[u8], to: &mut fmt::Formatter) -> fmt::Result {
    bytes.iter().try_for_each(|byte| write!(to, "{byte:02X}"))
}

impl fmt::Debug for TransactionId {
    fn fmt(&self, to: &mut fmt::Formatter) -> fmt::Result {
        write_hex(&self.0, to)
    }
}

impl fmt::Debug for Nonce {
    fn fmt(&self, to: &mut fmt::Formatter) -> fmt::Result {
        write_hex(&self.0, to)
    }
}

impl fmt::Debug for FreshNonce {
    fn fmt(&self, to: &mut fmt::Formatter) -> fmt::Result {
        write_hex(&self.0, to)
    }
}

impl fmt::Debug for CertHash {
    fn fmt(&self, to: &mut fmt::Formatter) -> fmt::Result {
        write_hex(&self.0, to)
    }
}
