//! HMAC (RFC 2104) with SHA-256 and SHA-1, whose blocks both have 64 bytes, under
//! keys that SHA-256 made.

use super::sha1::sha1;
use duskstall_host::testing::der::hex;
use duskstall_host::testing::sha256::sha256;

/// HMAC-SHA256.
pub fn hmac_sha256(key: &[u8; 32], message: &[u8]) -> Vec<u8> {
    hmac(|bytes| sha256(bytes).to_vec(), key, message)
}

/// HMAC-SHA1.
pub fn hmac_sha1(key: &[u8; 32], message: &[u8]) -> Vec<u8> {
    hmac(|bytes| sha1(bytes).to_vec(), key, message)
}

fn hmac(hash: impl Fn(&[u8]) -> Vec<u8>, key: &[u8; 32], message: &[u8]) -> Vec<u8> {
    let padded = |pad: u8| {
        let mut block = [pad; 64];
        block.iter_mut().zip(key).for_each(|(pad, key)| *pad ^= key);
        block
    };
    let inner = hash(&[&padded(0x36)[..], message].concat());
    hash(&[&padded(0x5C)[..], &inner].concat())
}

/// The second example of RFC 4231 and of RFC 2202, whose key zeros may follow; and
/// FIPS 180's second one of SHA-1, which needs a block more for the length.
#[test]
fn standards_examples_of_hmac() {
    let mut key = [0; 32];
    key[..4].copy_from_slice(b"Jefe");
    let message = b"what do ya want for nothing?";
    assert_eq!(
        hmac_sha256(&key, message),
        hex("5bdcc146bf60754e6a042426089575c75a003f089d2739839dec58b964ec3843")
    );
    assert_eq!(
        hmac_sha1(&key, message),
        hex("effcdf6ae5eb2fa2d27416d5f184df9c259a7c79")
    );
    assert_eq!(
        sha1(b"abcdbcdecdefdefgefghfghighijhijkijkljklmklmnlmnomnopnopq").to_vec(),
        hex("84983e441c3bd26ebaae4aa1f95129e5e54670f1")
    );
}
