//! OpenSSL's client enrols at our registrar, whose host is an HTTP server.

use super::draw::draw;
use super::http::{loopback, serve};
use super::openssl::{until, OpenSsl};
use super::protection::is_good;
use super::sending;
use duskstall_host::testing::exchange::P10CR;
use duskstall_host::testing::received::Received;
use duskstall_host::testing::sha256::sha256;
use duskstall_host::{Board, CertHash, FreshNonce, Outgoing, Registrar, TransactionState, Verdict};
use std::io::ErrorKind;
use std::net::TcpListener;

/// The only board that has the password.
pub const BOARD: Board = Board(7);

/// What the host does with a request that the registrar has taken: it issues a
/// certificate and makes this of the response before it sends it, or refuses.
#[derive(Clone, Copy)]
pub enum Policy {
    Issues(fn(Outgoing) -> Outgoing),
    Refuses,
}

/// A registrar's host, and what went through it.
pub struct Host<'a> {
    openssl: &'a OpenSsl,
    policy: Policy,
    registrar: Registrar,
    pub came: Vec<Received>,
    /// What the registrar said of each message: 0 for done, else the refusal.
    pub said: Vec<u8>,
    pub sent: Vec<Outgoing>,
    /// The certificate that was issued.
    pub certificate: Vec<u8>,
    /// Whether the client calls it a success.
    pub success: bool,
}

/// Runs the client with this command and this password until it ends.
pub fn run<'a>(openssl: &'a OpenSsl, command: &str, secret: &str, policy: Policy) -> Host<'a> {
    let mut host = Host {
        openssl,
        policy,
        registrar: Registrar::new(),
        came: Vec::new(),
        said: Vec::new(),
        sent: Vec::new(),
        certificate: Vec::new(),
        success: false,
    };
    let listener = TcpListener::bind(loopback(0)).expect("there is a free port");
    listener.set_nonblocking(true).expect("a socket can");
    let port = listener.local_addr().expect("it is bound").port();
    let mut client = openssl.client(command, secret, port);
    let status = until(|| {
        match listener.accept() {
            Ok((stream, _)) => serve(stream, |bytes| host.answer(bytes)).expect("it waits"),
            Err(error) => assert_eq!(error.kind(), ErrorKind::WouldBlock, "{error}"),
        }
        client.ended()
    });
    host.success = status.success();
    host
}

impl Host<'_> {
    /// The registrar's transactions: whose, of which kind, where they are and with
    /// which certificate.
    pub fn table(&self) -> Vec<(Board, u8, TransactionState, CertHash)> {
        let transactions = self.registrar.transactions();
        transactions
            .map(|(_, found)| (found.board, found.kind, found.state, found.hash))
            .collect()
    }

    fn answer(&mut self, bytes: Vec<u8>) -> Vec<u8> {
        let message = Received::read(bytes);
        let verdict = match is_good(&message) {
            true => Verdict::Good(BOARD),
            false => Verdict::Bad,
        };
        let nonce = FreshNonce(draw());
        let answer = self.registrar.message(&message.bytes, verdict, nonce);
        let refusal = answer.outcome.refusal();
        self.said.push(refusal.map_or(0, |refusal| refusal.number));
        let (outgoing, certificate) = match (answer.outgoing, self.policy) {
            (Some(outgoing), _) => (outgoing, None),
            (None, Policy::Refuses) => (self.refuse(&message), None),
            (None, Policy::Issues(change)) => {
                let response = change(self.issue(&message));
                (response, Some(&self.certificate[..]))
            }
        };
        self.came.push(message);
        self.sent.push(outgoing);
        sending::message(&outgoing, certificate)
    }

    /// The response to a request that the registrar has taken.
    fn issue(&mut self, request: &Received) -> Outgoing {
        let asked = match request.reading.kind {
            P10CR => request.part(request.reading.request).to_vec(),
            // The authority has no use for a CertTemplate; this is the same name and key.
            _ => self.openssl.read("new.csr"),
        };
        self.certificate = self.openssl.issue(&asked);
        let hash = CertHash(sha256(&self.certificate));
        let answer = (self.registrar).issue(request.id(), FreshNonce(draw()), hash);
        answer.outgoing.expect("the request is granted")
    }

    fn refuse(&mut self, request: &Received) -> Outgoing {
        let answer = self.registrar.refuse(request.id(), FreshNonce(draw()));
        answer.outgoing.expect("the request is refused")
    }
}
