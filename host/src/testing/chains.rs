//! Long messages for measuring: certificate chains of real certificates, taken
//! out of messages that OpenSSL's client and server exchanged.

use super::der::{parse, Node};
use super::messages::{full_header, key_pair, message, protection, responses, status_info};
use super::received::Received;
use super::writing::Call;
use crate::{Given, MESSAGE_LIMIT};

const MESSAGES: [&[u8]; 4] = [
    include_bytes!("../../tests/corpus/sig-extra-rsp1.der"),
    include_bytes!("../../tests/corpus/sig-extra-req1.der"),
    include_bytes!("../../tests/corpus/mac-extra-rsp1.der"),
    include_bytes!("../../tests/corpus/sig-sans-rsp1.der"),
];

/// ir, certConf and ip of an enrolment with signatures.
const SIGNED: [&[u8]; 3] = [
    include_bytes!("../../tests/corpus/sig-ir-req1.der"),
    include_bytes!("../../tests/corpus/sig-ir-req2.der"),
    include_bytes!("../../tests/corpus/sig-ir-rsp1.der"),
];

/// The different certificates in these messages.
pub fn certificates() -> Vec<Node> {
    let mut found = Vec::new();
    for bytes in MESSAGES {
        for element in parse(bytes).unwrap_or_default() {
            collect(element, &mut found);
        }
    }
    found
}

fn collect(element: Node, found: &mut Vec<Node>) {
    if is_certificate(&element) {
        if !found.contains(&element) {
            found.push(element);
        }
    } else {
        for child in element.children() {
            collect(child.clone(), found);
        }
    }
}

/// Contents to be signed, of which there are at least six, an algorithm and a
/// signature. (A certification request has four.)
fn is_certificate(element: &Node) -> bool {
    match element.children() {
        [contents, algorithm, signature] => {
            contents.children().len() >= 6 && algorithm.tag == 0x30 && signature.tag == 0x03
        }
        _ => false,
    }
}

/// As many certificates, over and over, as fit into `size` bytes.
fn chain(size: usize) -> Vec<Node> {
    let mut left = size;
    certificates()
        .into_iter()
        .cycle()
        .map_while(|certificate| {
            left = left.checked_sub(certificate.encoded_len())?;
            Some(certificate)
        })
        .collect()
}

/// An ip of at most `size` bytes with every header field, one certificate and
/// as long a chain in extraCerts as there is room for.
pub fn chain_message(size: usize) -> Vec<u8> {
    ip_with(certificates().pop(), |room| {
        chain(size.saturating_sub(room))
    })
}

/// The same with one certificate over and over, so that messages of all sizes
/// are made of the same elements, as near to `size` as whole certificates come.
pub fn even_message(size: usize) -> Vec<u8> {
    let certificate = certificates().pop();
    ip_with(certificate.clone(), |frame| {
        certificate.map_or(Vec::new(), |certificate| {
            let one = certificate.encoded_len();
            vec![certificate; (size.saturating_sub(frame) + one / 2) / one]
        })
    })
}

/// An ip with this certificate, and in extraCerts those that `extra` gives when
/// it is told how many bytes the rest of the message has.
fn ip_with(certificate: Option<Node>, extra: impl FnOnce(usize) -> Vec<Node>) -> Vec<u8> {
    let mut pair = key_pair(0, false);
    if let (Some(wrapper), Some(certificate)) = (pair.children_mut(), certificate) {
        wrapper[0] = Node::explicit(0, certificate);
    }
    let response = Node::sequence(vec![Node::integer(0), status_info(0, false), pair]);
    let body = Node::explicit(1, responses(false, vec![response]));
    let build = |chain| {
        let extra_certs = Node::explicit(1, Node::sequence(chain));
        message(full_header(), body.clone(), vec![protection(), extra_certs]).encode()
    };
    // Without the chain, and with the longest length forms around it.
    let frame = build(Vec::new()).len() + 6;
    build(extra(frame))
}

/// A SEQUENCE of about `size` bytes: certificates, and zeros where no further one
/// fits.
fn long_certificate(size: usize) -> Vec<u8> {
    let mut parts = chain(size.saturating_sub(8));
    let used: usize = parts.iter().map(Node::encoded_len).sum();
    parts.push(Node::octets(&vec![0; size.saturating_sub(used + 8)]));
    Node::sequence(parts).encode()
}

/// The calls that write OpenSSL's certConf, its ir, and its ip with a certificate
/// of about 1.4 KB in place of its own, and with one so long that the ip is about
/// as long as a message may be.
pub fn calls_to_write() -> [(&'static str, Call); 4] {
    let [ir, cert_conf, ip] = SIGNED.map(|bytes| Received::read(bytes.to_vec()));
    let with_certificate = |size: usize| {
        let certificate = long_certificate(size);
        let given = Given {
            certificate: Some(&certificate),
            ..ip.as_given()
        };
        Call::new(&ip.as_outgoing(), &given)
    };
    let as_it_is = |message: &Received| Call::new(&message.as_outgoing(), &message.as_given());
    [
        ("certConf", as_it_is(&cert_conf)),
        ("ir", as_it_is(&ir)),
        ("ip", with_certificate(1_434)),
        ("ip 16K", with_certificate(MESSAGE_LIMIT - 256)),
    ]
}

/// A run of at most `size` bytes of certificates.
pub fn chain_run(size: usize) -> Vec<u8> {
    chain(size).iter().flat_map(Node::encode).collect()
}
