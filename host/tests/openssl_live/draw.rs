//! What a host draws: ids, nonces and salts.

use duskstall_host::testing::sha256::sha256;
use std::sync::atomic::{AtomicU64, Ordering};

/// 16 bytes that no other call of this run gives.
pub fn draw() -> [u8; 16] {
    static DRAWN: AtomicU64 = AtomicU64::new(0);
    let number = DRAWN.fetch_add(1, Ordering::Relaxed);
    let hash = sha256(&number.to_be_bytes());
    *hash.first_chunk().expect("a hash is longer")
}
