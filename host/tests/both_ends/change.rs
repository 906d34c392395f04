//! Changes to a message: to single parts of it, so that a single row of the
//! refusals is met, and damage to its elements and bytes.

use super::pool::Pool;
use duskstall_host::testing::exchange::{Certificate, Parts};
use duskstall_host::testing::random::{self, Random};
use duskstall_host::MESSAGE_LIMIT;

/// The message, in two of three cases with one or two parts changed.
pub fn changed(mut parts: Parts, random: &mut Random, pool: &Pool) -> Parts {
    if random.once_in(2) {
        parts.version = 3;
    }
    for _ in 0..random.below(3) {
        change_one(&mut parts, random, pool);
    }
    parts
}

fn change_one(parts: &mut Parts, random: &mut Random, pool: &Pool) {
    const NUMBERS: [i64; 9] = [0, 1, 2, 3, 4, -1, 6, 0x7FFF_FFFF, -0x8000_0000];
    // The last is the pattern of -1 as a number of its own, in five bytes.
    const CERT_REQ_IDS: [i64; 8] = [0, -1, 1, -2, 4, 0x7FFF_FFFF, -0x8000_0000, 0xFFFF_FFFF];
    match random.below(14) {
        0 => parts.kind = random.below(27) as u8,
        1 => parts.version = *random.pick(&NUMBERS),
        2 => parts.protection_alg = false,
        3 => parts.protection = false,
        4 => parts.id = other(random, &pool.ids),
        5 => parts.sender_nonce = other(random, &pool.nonces),
        6 | 7 => parts.recip_nonce = other(random, &pool.nonces),
        8 => parts.entries = random.below(4),
        9 => parts.number = *random.pick(&CERT_REQ_IDS),
        10 => parts.status = Some(*random.pick(&NUMBERS)).filter(|_| !random.once_in(6)),
        11 => parts.hash = other(random, &pool.hashes).unwrap_or_default(),
        12 => parts.hash_alg = true,
        _ => {
            parts.certificate = *random.pick(&[Certificate::Nothing, Certificate::Encrypted]);
        }
    }
}

/// Another value of the pool, one of another length, or none.
fn other<const SIZE: usize>(random: &mut Random, pool: &[[u8; SIZE]]) -> Option<Vec<u8>> {
    match random.below(6) {
        0 => None,
        1 => {
            let len = random.below(2 * SIZE + 2);
            Some(random.bytes(len))
        }
        2 => Some(vec![0; SIZE]),
        _ => Some(random.pick(pool).to_vec()),
    }
}

/// The message's bytes, at times damaged, or other bytes altogether.
pub fn damaged(parts: Parts, random: &mut Random) -> Vec<u8> {
    match random.below(64) {
        0 => random::message(random).encode(),
        1 => {
            let len = random.below(40);
            random.bytes(len)
        }
        2 => too_long(parts, random),
        3..=6 => {
            let mut node = parts.node();
            random::damage_elements(&mut node, random);
            node.encode()
        }
        7..=10 => {
            let mut bytes = parts.encode();
            random::damage_bytes(&mut bytes, random);
            bytes
        }
        _ => parts.encode(),
    }
}

/// Near the largest size, on both sides of it.
fn too_long(parts: Parts, random: &mut Random) -> Vec<u8> {
    let mut bytes = parts.encode();
    bytes.resize(MESSAGE_LIMIT - 2 + random.below(4), 0);
    bytes
}
