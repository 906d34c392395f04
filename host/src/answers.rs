//! The library's answers, from their bytes into plain data.
//!
//! Bytes outside the contract give [`Refusal::OUTSIDE_CONTRACT`], which no call
//! gives, so that a comparison shows it.

use crate::ends::{
    CertHash, EndEntityAnswer, Nonce, Outcome, Outgoing, RegistrarAnswer, Slot, TransactionId,
};
use crate::limits::{HASH_BYTES, ID_BYTES, NONCE_BYTES};
use crate::refusal::Refusal;
use crate::types::Refused;

/// The size of the reader's fault in an answer: number, offset and rule.
const FAULT_BYTES: usize = 1 + size_of::<u64>() + 1;

/// The size of an answer's first part, the same at both ends: outcome, number,
/// bit and fault.
const OUTCOME_BYTES: usize = 3 + FAULT_BYTES;

/// The size of all before the outgoing message: the registrar's has a slot, too,
/// and both have whether there is such a message.
const REGISTRAR_HEAD_BYTES: usize = OUTCOME_BYTES + 2;
const END_ENTITY_HEAD_BYTES: usize = OUTCOME_BYTES + 1;

/// The size of an outgoing message in an answer: kind, id, two nonces, status,
/// hash, failure and certReqId; the second nonce, the status and the certReqId
/// with whether they are there.
pub const OUTGOING_BYTES: usize =
    1 + ID_BYTES + 2 * NONCE_BYTES + 3 + size_of::<u32>() + HASH_BYTES + 1 + size_of::<i32>();

/// The size of the registrar's answer: its head and the outgoing message.
pub const REGISTRAR_ANSWER_BYTES: usize = REGISTRAR_HEAD_BYTES + OUTGOING_BYTES;

/// The size of an end entity's answer.
pub const END_ENTITY_ANSWER_BYTES: usize = END_ENTITY_HEAD_BYTES + OUTGOING_BYTES;

/// A bit's byte where there is none.
const NO_BIT: u8 = 255;

const CERT_CONF: u8 = 24;

/// The registrar's answer, of a call that gave this number.
pub fn registrar(number: u64, bytes: &[u8; REGISTRAR_ANSWER_BYTES]) -> RegistrarAnswer {
    registrar_answer(number, bytes).unwrap_or(RegistrarAnswer {
        outcome: Outcome::Refused(Refusal::OUTSIDE_CONTRACT),
        slot: None,
        outgoing: None,
    })
}

/// An end entity's answer, of a call that gave this number.
pub fn end_entity(number: u64, bytes: &[u8; END_ENTITY_ANSWER_BYTES]) -> EndEntityAnswer {
    end_entity_answer(number, bytes).unwrap_or(OUTSIDE_CONTRACT)
}

/// An end entity's answer where the library broke its contract.
pub const OUTSIDE_CONTRACT: EndEntityAnswer = EndEntityAnswer {
    outcome: Outcome::Refused(Refusal::OUTSIDE_CONTRACT),
    outgoing: None,
};

fn registrar_answer(number: u64, bytes: &[u8; REGISTRAR_ANSWER_BYTES]) -> Option<RegistrarAnswer> {
    let (head, outgoing) = bytes.split_first_chunk::<REGISTRAR_HEAD_BYTES>()?;
    let [rest @ .., slot, sends] = head;
    let outcome = outcome(number, rest)?;
    Some(RegistrarAnswer {
        outcome,
        slot: match outcome {
            Outcome::Refused(_) => None,
            _ => Some(Slot(usize::from(*slot))),
        },
        outgoing: sent(*sends, outgoing)?,
    })
}

fn end_entity_answer(
    number: u64,
    bytes: &[u8; END_ENTITY_ANSWER_BYTES],
) -> Option<EndEntityAnswer> {
    let (head, outgoing) = bytes.split_first_chunk::<END_ENTITY_HEAD_BYTES>()?;
    let [rest @ .., sends] = head;
    Some(EndEntityAnswer {
        outcome: outcome(number, rest)?,
        outgoing: sent(*sends, outgoing)?,
    })
}

/// Outcome, number, bit and the reader's fault. The call gives the outcome as
/// its number, too.
fn outcome(call: u64, head: &[u8; OUTCOME_BYTES]) -> Option<Outcome> {
    let [outcome, number, bit, fault @ ..] = head;
    if call != u64::from(*outcome) {
        return None;
    }
    match outcome {
        0 => Some(Outcome::Done),
        1 => Some(Outcome::Again),
        2 => Some(Outcome::Refused(Refusal {
            number: *number,
            bit: bit_of(*bit),
            fault: fault_of(fault)?,
        })),
        _ => None,
    }
}

fn bit_of(byte: u8) -> Option<u8> {
    (byte != NO_BIT).then_some(byte)
}

fn fault_of(bytes: &[u8; FAULT_BYTES]) -> Option<Option<Refused>> {
    let [number, offset @ .., rule] = bytes;
    if *number == 0 {
        return Some(None);
    }
    Some(Some(Refused {
        number: *number,
        offset: usize::try_from(u64::from_be_bytes(*offset)).ok()?,
        rule: *rule,
    }))
}

fn sent(sends: u8, bytes: &[u8]) -> Option<Option<Outgoing>> {
    match sends {
        0 => Some(None),
        1 => Some(Some(outgoing(bytes.try_into().ok()?)?)),
        _ => None,
    }
}

/// The message that these bytes of an answer say; none if a flag is none.
pub fn outgoing(bytes: &[u8; OUTGOING_BYTES]) -> Option<Outgoing> {
    let [kind, rest @ ..] = bytes;
    let (id, rest) = rest.split_first_chunk()?;
    let (sender_nonce, rest) = rest.split_first_chunk()?;
    let (has_recip_nonce, rest) = rest.split_first()?;
    let (recip_nonce, rest) = rest.split_first_chunk()?;
    let (has_status, rest) = rest.split_first()?;
    let (status, rest) = rest.split_first_chunk()?;
    let (hash, rest) = rest.split_first_chunk()?;
    let (failure, rest) = rest.split_first()?;
    let (has_number, number) = rest.split_first()?;
    Some(Outgoing {
        kind: *kind,
        id: TransactionId(*id),
        sender_nonce: Nonce(*sender_nonce),
        recip_nonce: flag(*has_recip_nonce)?.then_some(Nonce(*recip_nonce)),
        status: flag(*has_status)?.then_some(u32::from_be_bytes(*status)),
        hash: (*kind == CERT_CONF).then_some(CertHash(*hash)),
        failure: bit_of(*failure),
        number: flag(*has_number)?.then_some(i32::from_be_bytes(number.try_into().ok()?)),
    })
}

/// An outgoing message's bytes, as an answer holds them; what is absent is zero.
pub fn outgoing_bytes(outgoing: &Outgoing) -> [u8; OUTGOING_BYTES] {
    let flag = |there: bool| [u8::from(there)];
    let fields: [&[u8]; 11] = [
        &[outgoing.kind],
        &outgoing.id.0,
        &outgoing.sender_nonce.0,
        &flag(outgoing.recip_nonce.is_some()),
        &outgoing.recip_nonce.unwrap_or_default().0,
        &flag(outgoing.status.is_some()),
        &outgoing.status.unwrap_or_default().to_be_bytes(),
        &outgoing.hash.unwrap_or_default().0,
        &[outgoing.failure.unwrap_or(NO_BIT)],
        &flag(outgoing.number.is_some()),
        &outgoing.number.unwrap_or_default().to_be_bytes(),
    ];
    let mut bytes = [0; OUTGOING_BYTES];
    let mut rest = &mut bytes[..];
    for field in fields {
        let (place, after) = rest.split_at_mut(field.len());
        place.copy_from_slice(field);
        rest = after;
    }
    bytes
}

fn flag(byte: u8) -> Option<bool> {
    match byte {
        0 => Some(false),
        1 => Some(true),
        _ => None,
    }
}

#[cfg(test)]
mod tests {
    use super::*;

    /// A certConf to be sent, with these last five bytes.
    fn cert_conf(number: [u8; 5]) -> EndEntityAnswer {
        let mut bytes = [0; END_ENTITY_ANSWER_BYTES];
        bytes[END_ENTITY_HEAD_BYTES - 1] = 1;
        bytes[END_ENTITY_HEAD_BYTES] = CERT_CONF;
        bytes[END_ENTITY_ANSWER_BYTES - 5..].copy_from_slice(&number);
        end_entity(0, &bytes)
    }

    #[test]
    fn cert_req_id_of_an_answer() {
        let number = |bytes| cert_conf(bytes).outgoing.expect("it is sent").number;
        assert_eq!(number([0, 0, 0, 0, 0]), None);
        assert_eq!(number([1, 0, 0, 0, 0]), Some(0));
        assert_eq!(number([1, 0xFF, 0xFF, 0xFF, 0xFF]), Some(-1));
        assert_eq!(number([1, 0x80, 0, 0, 1]), Some(i32::MIN + 1));
        for flag in 2..=u8::MAX {
            assert_eq!(cert_conf([flag, 0, 0, 0, 0]), OUTSIDE_CONTRACT);
        }
    }
}
