//! Protection by a password-based MAC (RFC 9810, 5.1.3.1): checked in what
//! OpenSSL sends, and made for what our ends send.

use super::hmac::{hmac_sha1, hmac_sha256};
use duskstall_host::testing::der::{parse, Content, Node};
use duskstall_host::testing::received::Received;
use duskstall_host::testing::sha256::sha256;

/// The password of the board, and the reference that names it as senderKID.
pub const SECRET: &str = "board-secret";
pub const REFERENCE: &str = "board-7";

/// id-PasswordBasedMac, 1.2.840.113533.7.66.13.
const PASSWORD_BASED_MAC: [u8; 9] = [0x2A, 0x86, 0x48, 0x86, 0xF6, 0x7D, 0x07, 0x42, 0x0D];
/// 2.16.840.1.101.3.4.2.1.
const SHA256: [u8; 9] = [0x60, 0x86, 0x48, 0x01, 0x65, 0x03, 0x04, 0x02, 0x01];
/// 1.2.840.113549.2.9.
const HMAC_SHA256: [u8; 8] = [0x2A, 0x86, 0x48, 0x86, 0xF7, 0x0D, 0x02, 0x09];
/// 1.3.6.1.5.5.8.1.2.
const HMAC_SHA1: [u8; 8] = [0x2B, 0x06, 0x01, 0x05, 0x05, 0x08, 0x01, 0x02];

type Mac = fn(&[u8; 32], &[u8]) -> Vec<u8>;

/// A PBMParameter whose one-way function is SHA-256.
pub struct PasswordBased {
    salt: Vec<u8>,
    iterations: u16,
    mac: (&'static [u8], Mac),
}

impl PasswordBased {
    /// As our ends protect: HMAC-SHA256, with a salt that the host has drawn.
    pub fn new(salt: [u8; 16]) -> PasswordBased {
        PasswordBased {
            salt: salt.into(),
            iterations: 500,
            mac: (&HMAC_SHA256, hmac_sha256),
        }
    }

    /// From a protectionAlg; none if it is of another sort.
    fn read(algorithm: &[u8]) -> Option<PasswordBased> {
        let [algorithm] = &parse(algorithm)?[..] else {
            return None;
        };
        let [_, parameter] = algorithm.children() else {
            return None;
        };
        let [salt, _, iterations, mac] = parameter.children() else {
            return None;
        };
        let mac: (&[u8], Mac) = match mac.children() {
            [oid] if *oid == Node::oid(&HMAC_SHA256) => (&HMAC_SHA256, hmac_sha256),
            [oid] if *oid == Node::oid(&HMAC_SHA1) => (&HMAC_SHA1, hmac_sha1),
            _ => return None,
        };
        let read = PasswordBased {
            salt: content(salt)?.into(),
            iterations: u16::from_be_bytes(content(iterations)?.try_into().ok()?),
            mac,
        };
        // All else in it has to be as it would be written here.
        (read.algorithm() == *algorithm).then_some(read)
    }

    /// The AlgorithmIdentifier.
    pub fn algorithm(&self) -> Node {
        let algorithm = |oid| Node::sequence(vec![Node::oid(oid)]);
        let parameter = Node::sequence(vec![
            Node::octets(&self.salt),
            algorithm(&SHA256),
            Node::integer(self.iterations.into()),
            algorithm(self.mac.0),
        ]);
        Node::sequence(vec![Node::oid(&PASSWORD_BASED_MAC), parameter])
    }

    /// The MAC of a ProtectedPart in DER.
    pub fn mac(&self, part: &[u8]) -> Vec<u8> {
        let first = sha256(&[SECRET.as_bytes(), &self.salt].concat());
        let key = (1..self.iterations).fold(first, |key, _| sha256(&key));
        (self.mac.1)(&key, part)
    }

    /// The protection, `[0]`, of a message that was sent.
    fn protection(&self, message: &Received) -> Node {
        let mac = self.mac(&message.protected_part());
        Node::explicit(0, Node::bits(0, &mac))
    }
}

fn content(node: &Node) -> Option<&[u8]> {
    match &node.content {
        Content::Bytes(bytes) => Some(bytes),
        Content::Elements(_) => None,
    }
}

/// Whether a message is protected under the board's password.
pub fn is_good(message: &Received) -> bool {
    let reading = &message.reading;
    PasswordBased::read(message.part(reading.protection_alg))
        .is_some_and(|pbm| message.part(reading.protection) == pbm.protection(message).encode())
}
