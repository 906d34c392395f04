//! SHA-1 (FIPS 180-4), which OpenSSL's mock server protects with: no option of
//! it chooses another MAC than HMAC-SHA1.

use duskstall_host::testing::sha256::padded;

const START: [u32; 5] = [0x67452301, 0xefcdab89, 0x98badcfe, 0x10325476, 0xc3d2e1f0];

/// The hash of these bytes.
pub fn sha1(bytes: &[u8]) -> [u8; 20] {
    let mut hash = START;
    for block in padded(bytes).chunks(64) {
        add_block(&mut hash, block);
    }
    let mut out = [0; 20];
    for (place, word) in out.chunks_mut(4).zip(hash) {
        place.copy_from_slice(&word.to_be_bytes());
    }
    out
}

fn add_block(hash: &mut [u32; 5], block: &[u8]) {
    let mut words = [0u32; 80];
    for (word, bytes) in words.iter_mut().zip(block.chunks(4)) {
        *word = bytes
            .iter()
            .fold(0, |word, byte| word << 8 | u32::from(*byte));
    }
    for at in 16..80 {
        let mixed = words[at - 3] ^ words[at - 8] ^ words[at - 14] ^ words[at - 16];
        words[at] = mixed.rotate_left(1);
    }
    let mut state = *hash;
    for (at, word) in words.iter().enumerate() {
        let [a, b, c, d, e] = state;
        let (mixed, round) = match at {
            0..=19 => ((b & c) | (!b & d), 0x5a827999),
            20..=39 => (b ^ c ^ d, 0x6ed9eba1),
            40..=59 => ((b & c) | (b & d) | (c & d), 0x8f1bbcdc),
            _ => (b ^ c ^ d, 0xca62c1d6u32),
        };
        let sum = (a.rotate_left(5).wrapping_add(mixed))
            .wrapping_add(e)
            .wrapping_add(round)
            .wrapping_add(*word);
        state = [sum, a, b.rotate_left(30), c, d];
    }
    for (sum, word) in hash.iter_mut().zip(state) {
        *sum = sum.wrapping_add(word);
    }
}
