//! What our ends decided to send, written by the library and protected by the
//! host here: the MAC is made of the bytes that are written without protection, as
//! they are.

use super::draw::draw;
use super::protection::{PasswordBased, REFERENCE};
use duskstall_host::testing::der::Node;
use duskstall_host::testing::messages::{free_text, name};
use duskstall_host::{write_protected, Given, Outgoing, MESSAGE_LIMIT};

/// An OID that nobody knows, 1.3.6.1.4.1.99999.
const UNKNOWN: [u8; 8] = [0x2B, 0x06, 0x01, 0x04, 0x01, 0x86, 0x8D, 0x1F];

/// The message, with every field that its header may have. What a host adds goes
/// in as `enclosed`: the request, or the certificate of a response.
pub fn message(outgoing: &Outgoing, enclosed: Option<&[u8]>) -> Vec<u8> {
    let pbm = PasswordBased::new(draw());
    let (name, algorithm) = (name().encode(), pbm.algorithm().encode());
    let free_text = free_text(2).encode();
    let info = Node::sequence(vec![Node::oid(&UNKNOWN), Node::null()]);
    let general_info = Node::sequence(vec![info.clone(), info]).encode();
    let is_request = matches!(outgoing.kind, 0 | 2 | 4 | 7);
    let given = Given {
        message_time: Some(b"20261115120000Z"),
        protection_alg: Some(&algorithm),
        sender_kid: Some(REFERENCE.as_bytes()),
        recip_kid: Some(REFERENCE.as_bytes()),
        free_text: Some(&free_text),
        general_info: Some(&general_info),
        request: enclosed.filter(|_| is_request),
        certificate: enclosed.filter(|_| !is_request),
        ..Given::new(2, &name, &name)
    };
    let mut buffer = vec![0; MESSAGE_LIMIT];
    let size = write_protected(outgoing, &given, &mut buffer, |plain| pbm.mac(plain));
    buffer.truncate(size.expect("what our ends decided can be written"));
    buffer
}
