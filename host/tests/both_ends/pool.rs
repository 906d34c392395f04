//! Small pools of values, so that calls and states meet.

use duskstall_host::testing::random::Random;
use duskstall_host::{CertHash, Nonce, TransactionId, SLOTS};

/// Values that are used again and again. Zeros are among them, and an id that
/// is a nonce too. There are a few more ids than a table has room for.
pub struct Pool {
    pub ids: Vec<[u8; 16]>,
    pub nonces: Vec<[u8; 16]>,
    pub hashes: Vec<[u8; 32]>,
}

impl Pool {
    pub fn new(random: &mut Random) -> Pool {
        let mut ids = vec![[0; 16]];
        ids.extend((0..SLOTS + 3).map(|_| array(random)));
        let mut nonces = vec![[0; 16], ids[1]];
        nonces.extend((0..6).map(|_| array(random)));
        let mut hashes = vec![[0; 32]];
        hashes.extend((0..3).map(|_| array(random)));
        Pool {
            ids,
            nonces,
            hashes,
        }
    }

    pub fn id(&self, random: &mut Random) -> TransactionId {
        TransactionId(*random.pick(&self.ids))
    }

    /// One of the pool, or one that was never there.
    pub fn nonce(&self, random: &mut Random) -> Nonce {
        Nonce(if random.once_in(2) {
            array(random)
        } else {
            *random.pick(&self.nonces)
        })
    }

    pub fn hash(&self, random: &mut Random) -> CertHash {
        CertHash(*random.pick(&self.hashes))
    }
}

fn array<const SIZE: usize>(random: &mut Random) -> [u8; SIZE] {
    std::array::from_fn(|_| random.byte())
}
