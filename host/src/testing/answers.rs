//! Whole answers of both ends, for tests to expect.

use crate::ends::{
    EndEntityAnswer, FreshNonce, Nonce, Outcome, Outgoing, RegistrarAnswer, Slot, TransactionId,
};
use crate::refusal::Refusal;

/// An outgoing message without contents.
pub fn plain(
    kind: u8,
    id: TransactionId,
    sender_nonce: FreshNonce,
    recip_nonce: Nonce,
) -> Outgoing {
    Outgoing {
        kind,
        id,
        sender_nonce: sender_nonce.into(),
        recip_nonce: Some(recip_nonce),
        status: None,
        hash: None,
        failure: None,
        number: None,
    }
}

/// The error message that a registrar refuses a message with.
pub fn error(id: TransactionId, sender_nonce: FreshNonce, recip_nonce: Nonce, bit: u8) -> Outgoing {
    Outgoing {
        status: Some(2),
        failure: Some(bit),
        ..plain(23, id, sender_nonce, recip_nonce)
    }
}

fn refusal(number: u8, bit: Option<u8>) -> Outcome {
    Outcome::Refused(Refusal {
        number,
        bit,
        fault: None,
    })
}

pub fn registrar_done(slot: usize, outgoing: Option<Outgoing>) -> RegistrarAnswer {
    RegistrarAnswer {
        outcome: Outcome::Done,
        slot: Some(Slot(slot)),
        outgoing,
    }
}

pub fn registrar_refused(
    number: u8,
    bit: Option<u8>,
    outgoing: Option<Outgoing>,
) -> RegistrarAnswer {
    RegistrarAnswer {
        outcome: refusal(number, bit),
        slot: None,
        outgoing,
    }
}

pub fn board_done(outgoing: Option<Outgoing>) -> EndEntityAnswer {
    EndEntityAnswer {
        outcome: Outcome::Done,
        outgoing,
    }
}

pub fn board_refused(number: u8, bit: Option<u8>) -> EndEntityAnswer {
    EndEntityAnswer {
        outcome: refusal(number, bit),
        outgoing: None,
    }
}
