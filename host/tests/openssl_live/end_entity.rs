//! Our end entity enrols at OpenSSL's mock server, by HTTP.

use super::draw::draw;
use super::http::post;
use super::openssl::OpenSsl;
use super::protection::is_good;
use super::request::request;
use super::sending;
use duskstall_host::testing::received::Received;
use duskstall_host::testing::sha256::sha256;
use duskstall_host::{CertHash, Decision, EndEntity, FreshNonce, Outgoing, TransactionId};

/// A board's host, and what went through it.
pub struct Host {
    port: u16,
    /// Whether it accepts the certificate.
    accept: bool,
    pub board: EndEntity,
    pub sent: Vec<Outgoing>,
    pub came: Vec<Received>,
}

/// Runs an enrolment of this kind. The change is what the host makes of the
/// certConf before it sends it.
pub fn run(openssl: &OpenSsl, kind: u8, accept: bool, change: fn(Outgoing) -> Outgoing) -> Host {
    let (_server, port) = openssl.server();
    let started = EndEntity::start(kind, TransactionId(draw()), FreshNonce(draw()));
    let (board, first) = started.expect("a request opens an enrolment");
    let mut host = Host {
        port,
        accept,
        board,
        sent: Vec::new(),
        came: Vec::new(),
    };
    let request = request(openssl, kind).encode();
    let cert_conf = host.exchange(first, Some(&request));
    let cert_conf = cert_conf.expect("the board tells what was decided");
    let last = host.exchange(change(cert_conf), None);
    assert_eq!(last, None);
    host
}

impl Host {
    /// Sends a message, and hands the answer to the board, which takes it and may
    /// have something to send then.
    fn exchange(&mut self, outgoing: Outgoing, enclosed: Option<&[u8]>) -> Option<Outgoing> {
        let message = sending::message(&outgoing, enclosed);
        let answer = post(self.port, &message).expect("the server answers");
        let answer = Received::read(answer);
        let decision = Decision {
            accept: self.accept,
            hash: CertHash(sha256(answer.part(answer.reading.certificate))),
        };
        let good = is_good(&answer);
        let said = (self.board).message(&answer.bytes, good, decision, FreshNonce(draw()));
        assert_eq!(said.outcome.refusal(), None);
        self.sent.push(outgoing);
        self.came.push(answer);
        said.outgoing
    }
}
