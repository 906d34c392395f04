//! The responses and request numbers that the lists expect, and the ids and
//! nonces in their messages.

use duskstall_host::testing::answers::plain;
use duskstall_host::testing::exchange::{Parts, P10CR};
use duskstall_host::{FreshNonce, Nonce, Outgoing, TransactionId};

pub fn id_in(message: &Parts) -> TransactionId {
    TransactionId(sixteen(&message.id))
}

pub fn nonce_in(part: &Option<Vec<u8>>) -> Nonce {
    Nonce(sixteen(part))
}

fn sixteen(part: &Option<Vec<u8>>) -> [u8; 16] {
    let bytes = part.as_deref().expect("the lists leave it in");
    bytes.try_into().expect("the lists leave its length")
}

/// The certReqId of an enrolment by a request of this kind.
pub fn number_of(request: u8) -> i32 {
    match request {
        P10CR => -1,
        _ => 0,
    }
}

pub fn response(
    request: u8,
    id: TransactionId,
    nonce: FreshNonce,
    taken: Nonce,
    status: u32,
) -> Outgoing {
    let kind = match request {
        0 => 1,
        7 => 8,
        _ => 3,
    };
    Outgoing {
        status: Some(status),
        number: Some(number_of(request)),
        ..plain(kind, id, nonce, taken)
    }
}
