//! The model: both ends as ordinary Rust, to hold the compiled library to.
//!
//! It is written from document 01 alone and shares no code, table or constant
//! with the proved definitions; it reads messages with the independent reader.
//! A refusal leaves through `?`, so the lowest number that applies is the
//! first one that is asked about.

mod end_entity;
mod incoming;
mod registrar;

pub use end_entity::EndEntity;
pub use registrar::Registrar;

use crate::ends::{FreshNonce, Nonce, Outgoing, TransactionId};
use crate::refusal::Refusal;

const IR: u8 = 0;
const IP: u8 = 1;
const CR: u8 = 2;
const CP: u8 = 3;
const P10CR: u8 = 4;
const KUR: u8 = 7;
const KUP: u8 = 8;
const PKICONF: u8 = 19;
const ERROR: u8 = 23;
const CERT_CONF: u8 = 24;

const ACCEPTED: i32 = 0;
const GRANTED_WITH_MODS: i32 = 1;
const REJECTION: i32 = 2;

/// The kinds of requests: those that a start takes and that open a transaction.
fn is_request(kind: u8) -> bool {
    matches!(kind, IR | CR | P10CR | KUR)
}

/// The kind of the response to a request: 0:1, 2:3, 4:3, 7:8. No list of calls
/// makes a record of another kind, but bytes may hold one; document 01 leaves
/// its response open, and the library says cp.
fn response_to(request: u8) -> u8 {
    match request {
        IR => IP,
        KUR => KUP,
        _ => CP,
    }
}

/// The certReqId of an enrolment by a request of this kind: "-1 for p10cr",
/// which carries none itself, and "0 for the others".
fn request_number(request: u8) -> i32 {
    match request {
        P10CR => -1,
        _ => 0,
    }
}

/// A message to be sent, without what only some kinds carry.
fn plain(kind: u8, id: TransactionId, nonce: FreshNonce, recip_nonce: Option<Nonce>) -> Outgoing {
    Outgoing {
        kind,
        id,
        sender_nonce: nonce.into(),
        recip_nonce,
        status: None,
        hash: None,
        failure: None,
        number: None,
    }
}

/// A refusal with the table's bit. Number 20 has two and is made where it is
/// known which.
fn refusal(number: u8) -> Refusal {
    let bit = match number {
        1 | 2 | 4 => Some(5),
        3 => Some(22),
        5 => Some(18),
        6 | 7 => Some(1),
        8 | 9 | 12 | 15..=18 | 20 => Some(2),
        10 => Some(21),
        11 => Some(24),
        13 => Some(23),
        14 => Some(13),
        19 => Some(4),
        _ => None,
    };
    Refusal {
        number,
        bit,
        fault: None,
    }
}

/// Refuses with this number where it applies.
fn refuse_if(applies: bool, number: u8) -> Result<(), Refusal> {
    if applies {
        Err(refusal(number))
    } else {
        Ok(())
    }
}
