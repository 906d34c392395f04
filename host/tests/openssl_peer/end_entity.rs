//! The mock server's responses at our end entity, which is started with the id
//! and the nonce of OpenSSL's request and is handed the nonce of its certConf,
//! so that it stands where OpenSSL's client stood.

use super::exchange::Exchange;
use duskstall_host::testing::answers::{board_done, board_refused};
use duskstall_host::testing::received::Received;
use duskstall_host::{CertHash, Decision, EndEntity, EnrolmentState, FreshNonce};

/// Handed in where nothing is sent.
const OTHER: FreshNonce = FreshNonce([0x5A; 16]);

/// Handed in where no certificate is decided on.
const UNUSED: Decision = Decision {
    accept: true,
    hash: CertHash([0xEE; 32]),
};

/// The end entity sends what OpenSSL's client sent.
fn start(request: &Received) -> EndEntity {
    let started = EndEntity::start(request.reading.kind, request.id(), request.drawn_nonce());
    let (board, sent) = started.expect("a request opens an enrolment");
    assert_eq!(sent, request.as_outgoing());
    says_now(&board, EnrolmentState::Asked);
    board
}

fn says_now(board: &EndEntity, state: EnrolmentState) {
    assert_eq!(board.enrolment().state, state);
}

/// Refused with nothing sent, and the enrolment stays.
fn refuse(board: &mut EndEntity, message: &Received, good: bool, number: u8, bit: u8) {
    let before = board.clone();
    let answer = board.message(&message.bytes, good, UNUSED, OTHER);
    assert_eq!(answer, board_refused(number, Some(bit)));
    assert_eq!(*board, before);
}

/// A copy that answers another nonce is refused, by a good verdict, too.
fn refuse_altered(board: &mut EndEntity, message: &Received) {
    let altered = message.altered(message.reading.recip_nonce);
    refuse(board, &altered, false, 7, 1);
    refuse(board, &altered, true, 14, 13);
}

/// The server's response and its pkiConf lead to Sure.
pub fn is_sure(exchange: &Exchange) {
    let [request, response, cert_conf, pkiconf] = exchange.enrolment();
    let mut board = start(request);
    refuse_altered(&mut board, response);
    let hash = response.issued().expect("the server issued a certificate");
    let decision = Decision { accept: true, hash };
    let nonce = cert_conf.drawn_nonce();
    let answer = board.message(&response.bytes, true, decision, nonce);
    assert_eq!(answer, board_done(Some(cert_conf.as_outgoing())));
    says_now(&board, EnrolmentState::Confirming);
    assert_eq!(board.enrolment().hash, hash);

    refuse_altered(&mut board, pkiconf);
    let answer = board.message(&pkiconf.bytes, true, UNUSED, OTHER);
    assert_eq!(answer, board_done(None));
    says_now(&board, EnrolmentState::Sure);
    refuse(&mut board, pkiconf, true, 20, 2);
}

/// What an end entity says of each response of any transaction, 0 for done and
/// else the refusal's number, and the state it ends with; 32 alone where there
/// is no such start. Each response is met with the nonce of the next request.
pub fn says(exchange: &Exchange) -> (Vec<u8>, Option<EnrolmentState>) {
    let request = &exchange.requests[0];
    let started = EndEntity::start(request.reading.kind, request.id(), request.drawn_nonce());
    let mut board = match started {
        Ok((board, _)) => board,
        Err(refusal) => return (vec![refusal.number], None),
    };
    let nonces = exchange.requests[1..].iter().map(Received::drawn_nonce);
    let mut said = Vec::new();
    for (response, nonce) in exchange.responses.iter().zip(nonces.chain([OTHER])) {
        let hash = response.issued().unwrap_or_default();
        let decision = Decision { accept: true, hash };
        let answer = board.message(&response.bytes, true, decision, nonce);
        said.push(answer.outcome.refusal().map_or(0, |refusal| refusal.number));
    }
    (said, Some(board.enrolment().state))
}
