//! Requests for the board's new key: a PKCS #10, or a CertReqMsg (RFC 4211) with
//! the same name and key and a proof of possession.

use super::openssl::OpenSsl;
use duskstall_host::testing::der::{parse, Node};
use duskstall_host::testing::exchange::P10CR;

/// ecdsa-with-SHA256, 1.2.840.10045.4.3.2.
const ECDSA_WITH_SHA256: [u8; 8] = [0x2A, 0x86, 0x48, 0xCE, 0x3D, 0x04, 0x03, 0x02];
/// id-regCtrl-oldCertID, 1.3.6.1.5.5.7.5.1.5.
const OLD_CERT_ID: [u8; 9] = [0x2B, 0x06, 0x01, 0x05, 0x05, 0x07, 0x05, 0x01, 0x05];

/// The one element of sound DER.
fn element(der: &[u8]) -> Node {
    let nodes = parse(der).expect("it is DER");
    let [node] = <[Node; 1]>::try_from(nodes).expect("it is one element");
    node
}

/// The request that a message of this kind is written around.
pub fn request(openssl: &OpenSsl, kind: u8) -> Node {
    let pkcs10 = element(&openssl.read("new.csr"));
    if kind == P10CR {
        return pkcs10;
    }
    let [_version, subject, key, ..] = pkcs10.children()[0].children() else {
        panic!("a PKCS #10 has these");
    };
    let template = Node::sequence(vec![
        Node::explicit(5, subject.clone()),
        Node::constructed(0xA6, key.children().to_vec()),
    ]);
    // A request has this certReqId (RFC 9483, 4.1.1).
    let mut parts = vec![Node::integer(0), template];
    if kind == 7 {
        parts.push(Node::sequence(vec![old_cert_id(openssl)]));
    }
    let cert_request = Node::sequence(parts);
    let signature = openssl.sign(&cert_request.encode());
    let possession = vec![
        Node::sequence(vec![Node::oid(&ECDSA_WITH_SHA256)]),
        Node::bits(0, &signature),
    ];
    Node::sequence(vec![cert_request, Node::constructed(0xA1, possession)])
}

/// The control of a kur that names the certificate to be replaced.
fn old_cert_id(openssl: &OpenSsl) -> Node {
    let certificate = element(&openssl.read("new.crt"));
    let fields = certificate.children()[0].children();
    let mut fields = fields.iter().skip_while(|field| field.tag == 0xA0);
    let (Some(serial), Some(issuer)) = (fields.next(), fields.nth(1)) else {
        panic!("a certificate has these");
    };
    let old = vec![Node::explicit(4, issuer.clone()), serial.clone()];
    Node::sequence(vec![Node::oid(&OLD_CERT_ID), Node::sequence(old)])
}
