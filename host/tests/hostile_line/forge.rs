//! Messages that the line makes up, alters and breaks.

use super::world::World;
use duskstall_host::testing::exchange::{some_number, Certificate, Parts};
use duskstall_host::testing::random::{self, Random};
use duskstall_host::{CertHash, MESSAGE_LIMIT};

/// A drawn number, or one of the next.
pub fn any_number(drawn: u128, random: &mut Random) -> [u8; 16] {
    (random.below(drawn as usize + 2) as u128).to_be_bytes()
}

/// One of a few hashes, so that certificates of two boards have the same.
pub fn hash(random: &mut Random) -> CertHash {
    CertHash([random.below(3) as u8; 32])
}

/// A message of values that the line has seen or can guess, mostly one that
/// would fit a transaction or an enrolment.
pub fn invent(world: &World, random: &mut Random) -> Parts {
    let mut parts = guess(world, random);
    let transactions: Vec<_> = world.registrar.transactions().collect();
    match random.below(4) {
        0 => {
            parts.kind = *random.pick(&[0, 2, 4, 7]);
            parts.recip_nonce = None;
        }
        1 if !transactions.is_empty() => {
            let (_, transaction) = random.pick(&transactions);
            parts.kind = 24;
            parts.id = Some(transaction.id.0.to_vec());
            parts.recip_nonce = Some(transaction.sent.0.to_vec());
            parts.hash = transaction.hash.0.to_vec();
            parts.number = some_number(random, transaction.kind);
        }
        2 => {
            let enrolment = random.pick(&world.enrolments).end.enrolment();
            parts.kind = *random.pick(&[1, 3, 8, 19, 19, 23]);
            parts.id = Some(enrolment.id.0.to_vec());
            parts.recip_nonce = Some(enrolment.last.0.to_vec());
            parts.number = some_number(random, enrolment.kind);
        }
        _ => {}
    }
    parts
}

/// A message of any kind, for nothing in particular.
fn guess(world: &World, random: &mut Random) -> Parts {
    Parts {
        kind: random.below(27) as u8,
        version: 2 + random.below(2) as i64,
        protection_alg: true,
        protection: true,
        id: Some(any_number(world.ids, random).to_vec()),
        sender_nonce: Some(any_number(world.nonces, random).to_vec()),
        recip_nonce: Some(any_number(world.nonces, random).to_vec()),
        entries: 1,
        number: 0,
        status: Some(*random.pick(&[0, 2])),
        hash: hash(random).0.to_vec(),
        hash_alg: false,
        certificate: Certificate::Plain,
    }
}

/// Changes one part of a message.
pub fn alter(parts: &mut Parts, world: &World, random: &mut Random) {
    let nonce = any_number(world.nonces, random).to_vec();
    let other = [None, Some(vec![0; 15]), Some(nonce.clone()), Some(nonce)];
    match random.below(14) {
        0 => parts.version = *random.pick(&[1, 4]),
        1 => parts.protection_alg = false,
        2 => parts.protection = false,
        3 => {
            parts.id = random.pick(&other).clone();
        }
        4 => parts.sender_nonce = random.pick(&other).clone(),
        5 => parts.recip_nonce = random.pick(&other).clone(),
        6 => parts.entries = *random.pick(&[0, 2]),
        7 | 8 => parts.number = *random.pick(&[0, 1, -1]),
        9 => parts.status = *random.pick(&[None, Some(0), Some(1), Some(2), Some(3)]),
        10 => parts.hash = hash(random).0.to_vec(),
        11 => parts.hash_alg = true,
        12 => parts.certificate = *random.pick(&[Certificate::Nothing, Certificate::Encrypted]),
        _ => parts.kind = random.below(27) as u8,
    }
}

/// Breaks a message's bytes.
pub fn damage(parts: &Parts, random: &mut Random) -> Vec<u8> {
    let mut bytes = parts.encode();
    match random.below(8) {
        0 => bytes.clear(),
        1 => bytes.resize(MESSAGE_LIMIT + 1, 0),
        _ => random::damage_bytes(&mut bytes, random),
    }
    bytes
}
