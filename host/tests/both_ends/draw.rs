//! States and calls drawn at random. Messages are made to fit the state they go
//! to before something in them is changed.

use super::calls::{EndEntityCall, EndEntityMessage, RegistrarCall};
use super::change::{changed, damaged};
use super::pool::Pool;
use duskstall_host::testing::exchange::{some_number, Certificate, Parts, P10CR};
use duskstall_host::testing::random::Random;
use duskstall_host::{
    Board, Enrolment, Transaction, TransactionState, ENROLMENT_BYTES, ENROLMENT_STATES, SLOTS,
    TABLE_BYTES, TRANSACTION_BYTES, TRANSACTION_STATES,
};

/// The kinds of requests; p10cr, with a certReqId of its own, as often as the
/// others together.
const REQUESTS: [u8; 6] = [0, 2, 7, P10CR, P10CR, P10CR];

// States.

/// The empty table, one of the pool's values, or any bytes.
pub fn table(random: &mut Random, pool: &Pool) -> Vec<u8> {
    let full = random.once_in(3);
    match random.below(8) {
        0..=2 => vec![0; TABLE_BYTES],
        3..=6 => (0..SLOTS)
            .flat_map(|_| transaction(random, pool, full).pack())
            .collect(),
        _ => any_table(random),
    }
}

fn transaction(random: &mut Random, pool: &Pool, full: bool) -> Transaction {
    let state = *random.pick(&TRANSACTION_STATES[usize::from(full)..]);
    if state == TransactionState::Free && random.once_in(2) {
        return Transaction::default();
    }
    Transaction {
        id: pool.id(random),
        board: board(random),
        kind: request_kind(random),
        taken: pool.nonce(random),
        sent: pool.nonce(random),
        hash: pool.hash(random),
        state,
    }
}

/// Any bytes, with states or, seldom, without.
fn any_table(random: &mut Random) -> Vec<u8> {
    let mut bytes = random.bytes(TABLE_BYTES);
    if !random.once_in(4) {
        for transaction in bytes.chunks_mut(TRANSACTION_BYTES) {
            transaction[TRANSACTION_BYTES - 1] %= TRANSACTION_STATES.len() as u8;
        }
    }
    bytes
}

/// An enrolment of the pool's values, or any bytes.
pub fn enrolment(random: &mut Random, pool: &Pool) -> Vec<u8> {
    if !random.once_in(6) {
        return pooled(random, pool).pack();
    }
    let mut bytes = random.bytes(ENROLMENT_BYTES);
    if !random.once_in(4) {
        bytes[ENROLMENT_BYTES - 1] %= ENROLMENT_STATES.len() as u8;
    }
    bytes
}

fn pooled(random: &mut Random, pool: &Pool) -> Enrolment {
    Enrolment {
        id: pool.id(random),
        kind: request_kind(random),
        last: pool.nonce(random),
        taken: pool.nonce(random),
        hash: pool.hash(random),
        state: *random.pick(&ENROLMENT_STATES),
    }
}

fn request_kind(random: &mut Random) -> u8 {
    if random.once_in(16) {
        random.byte()
    } else {
        *random.pick(&REQUESTS)
    }
}

fn board(random: &mut Random) -> Board {
    Board(if random.once_in(16) {
        random.draw() as u16
    } else {
        random.below(4) as u16
    })
}

// Calls.

/// A call of the registrar, mostly one about a transaction of its table.
pub fn registrar_call(random: &mut Random, pool: &Pool, table: &[u8]) -> RegistrarCall {
    let slot = random.below(SLOTS) * TRANSACTION_BYTES;
    let about = table
        .get(slot..slot + TRANSACTION_BYTES)
        .and_then(Transaction::unpack)
        .unwrap_or_default();
    let id = if random.once_in(6) {
        pool.id(random)
    } else {
        about.id
    };
    let id = lent(&id.0, random);
    let nonce = lent(&pool.nonce(random).0, random);
    match random.below(10) {
        0 => RegistrarCall::Issue {
            id,
            nonce,
            hash: lent(&pool.hash(random).0, random),
        },
        1 => RegistrarCall::Refuse { id, nonce },
        2 => RegistrarCall::Lapse { id },
        3 => RegistrarCall::Close { id },
        _ => RegistrarCall::Message {
            message: message_to_registrar(random, pool, &about),
            good: yes_or_no(random),
            board: if random.once_in(8) {
                board(random).0
            } else {
                about.board.0
            },
            nonce,
        },
    }
}

/// A call of an end entity with this enrolment.
pub fn end_entity_call(random: &mut Random, pool: &Pool, enrolment: &[u8]) -> EndEntityCall {
    let nonce = lent(&pool.nonce(random).0, random);
    match random.below(12) {
        0 => EndEntityCall::TimeOut,
        1 => EndEntityCall::Start {
            kind: if random.once_in(4) {
                random.byte()
            } else {
                *random.pick(&REQUESTS)
            },
            id: lent(&pool.id(random).0, random),
            nonce,
        },
        _ => EndEntityCall::Message(EndEntityMessage {
            message: message_to_end_entity(random, pool, enrolment),
            good: yes_or_no(random),
            accept: if random.once_in(2) {
                0
            } else {
                yes_or_no(random)
            },
            hash: lent(&pool.hash(random).0, random),
            nonce,
        }),
    }
}

/// Mostly 1, which alone is good or accepts; else 0, a number that could be
/// taken for yes, or any.
fn yes_or_no(random: &mut Random) -> u8 {
    match random.below(24) {
        0 => 0,
        1 => *random.pick(&[2, 254, 255]),
        2 => random.byte(),
        _ => 1,
    }
}

/// The bytes, seldom with another length.
fn lent(bytes: &[u8], random: &mut Random) -> Vec<u8> {
    if random.once_in(128) {
        let len = random.below(40);
        random.bytes(len)
    } else {
        bytes.to_vec()
    }
}

// Messages.

/// A request, or a certConf that this transaction would take, before damage.
fn message_to_registrar(random: &mut Random, pool: &Pool, about: &Transaction) -> Vec<u8> {
    let sender_nonce = match random.below(3) {
        0 => pool.nonce(random),
        _ => about.taken,
    };
    let parts = if random.once_in(3) {
        Parts {
            kind: *random.pick(&REQUESTS),
            id: Some(pool.id(random).0.to_vec()),
            sender_nonce: Some(sender_nonce.0.to_vec()),
            ..plain()
        }
    } else {
        Parts {
            kind: 24,
            id: Some(about.id.0.to_vec()),
            sender_nonce: Some(sender_nonce.0.to_vec()),
            recip_nonce: Some(about.sent.0.to_vec()),
            status: *random.pick(&[None, Some(0), Some(2)]),
            hash: about.hash.0.to_vec(),
            number: some_number(random, about.kind),
            ..plain()
        }
    };
    damaged(changed(parts, random, pool), random)
}

/// A response, pkiconf or error that this enrolment would take, before damage.
fn message_to_end_entity(random: &mut Random, pool: &Pool, enrolment: &[u8]) -> Vec<u8> {
    let about = Enrolment::unpack(enrolment).unwrap_or_else(|| pooled(random, pool));
    let kind = match (random.below(4), about.kind) {
        (0, _) => 19,
        (1, _) => 23,
        (_, 0) => 1,
        (_, 7) => 8,
        _ => 3,
    };
    let parts = Parts {
        kind,
        id: Some(about.id.0.to_vec()),
        sender_nonce: Some(pool.nonce(random).0.to_vec()),
        recip_nonce: Some(about.last.0.to_vec()),
        status: Some(match kind {
            23 => 2,
            _ => random.below(3) as i64,
        }),
        number: some_number(random, about.kind),
        ..plain()
    };
    damaged(changed(parts, random, pool), random)
}

/// A sound message in which the rest is to be filled in.
fn plain() -> Parts {
    Parts {
        kind: 0,
        version: 2,
        protection_alg: true,
        protection: true,
        id: None,
        sender_nonce: None,
        recip_nonce: None,
        entries: 1,
        number: 0,
        status: None,
        hash: Vec::new(),
        hash_alg: false,
        certificate: Certificate::Plain,
    }
}
