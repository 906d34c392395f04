//! States and answers in bytes, as the library's boundary has them.

use duskstall_host::model::Registrar;
use duskstall_host::{
    CertHash, EndEntityAnswer, Nonce, Outcome, Outgoing, RegistrarAnswer, Slot, Transaction,
    END_ENTITY_ANSWER_BYTES, REGISTRAR_ANSWER_BYTES, TRANSACTION_BYTES,
};

/// The byte of a bit that is none.
const NO_BIT: u8 = 255;

pub fn table(registrar: &Registrar) -> Vec<u8> {
    registrar
        .transactions
        .iter()
        .flat_map(Transaction::pack)
        .collect()
}

/// The table in bytes, unless they are none.
pub fn unpack_table(bytes: &[u8]) -> Option<Registrar> {
    let transactions: Option<Vec<Transaction>> = bytes
        .chunks(TRANSACTION_BYTES)
        .map(Transaction::unpack)
        .collect();
    Some(Registrar {
        transactions: transactions?.try_into().ok()?,
    })
}

/// The number a call gives.
pub fn number(outcome: Outcome) -> u8 {
    match outcome {
        Outcome::Done => 0,
        Outcome::Again => 1,
        Outcome::Refused(_) => 2,
    }
}

pub fn registrar_answer(answer: RegistrarAnswer) -> Vec<u8> {
    let mut bytes = outcome(answer.outcome);
    let Slot(slot) = answer.slot.unwrap_or(Slot(0));
    bytes.push(slot as u8);
    outgoing(answer.outgoing, &mut bytes);
    assert_eq!(bytes.len(), REGISTRAR_ANSWER_BYTES);
    bytes
}

pub fn end_entity_answer(answer: EndEntityAnswer) -> Vec<u8> {
    let mut bytes = outcome(answer.outcome);
    outgoing(answer.outgoing, &mut bytes);
    assert_eq!(bytes.len(), END_ENTITY_ANSWER_BYTES);
    bytes
}

/// Outcome, number, bit, and the reader's fault.
fn outcome(outcome: Outcome) -> Vec<u8> {
    let mut bytes = vec![number(outcome), 0, NO_BIT];
    let refusal = outcome.refusal();
    if let Some(refusal) = refusal {
        bytes[1] = refusal.number;
        bytes[2] = refusal.bit.unwrap_or(NO_BIT);
    }
    match refusal.and_then(|refusal| refusal.fault) {
        Some(fault) => {
            bytes.push(fault.number);
            bytes.extend((fault.offset as u64).to_be_bytes());
            bytes.push(fault.rule);
        }
        None => bytes.extend([0; 10]),
    }
    bytes
}

/// Whether something is sent, and what; zeros and no bit where nothing is.
fn outgoing(outgoing: Option<Outgoing>, bytes: &mut Vec<u8>) {
    bytes.push(outgoing.is_some().into());
    let Some(sent) = outgoing else {
        bytes.extend([0; 87]);
        bytes.push(NO_BIT);
        return bytes.extend([0; 5]);
    };
    let Nonce(recip_nonce) = sent.recip_nonce.unwrap_or_default();
    let CertHash(hash) = sent.hash.unwrap_or_default();
    bytes.push(sent.kind);
    bytes.extend(sent.id.0);
    bytes.extend(sent.sender_nonce.0);
    bytes.push(sent.recip_nonce.is_some().into());
    bytes.extend(recip_nonce);
    bytes.push(sent.status.is_some().into());
    bytes.extend(sent.status.unwrap_or(0).to_be_bytes());
    bytes.extend(hash);
    bytes.push(sent.failure.unwrap_or(NO_BIT));
    bytes.push(sent.number.is_some().into());
    bytes.extend(sent.number.unwrap_or(0).to_be_bytes());
}
