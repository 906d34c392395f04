//! OpenSSL's requests at our registrar. Its host hands in the nonces that
//! OpenSSL's server drew, so that what the registrar gives to send can be held
//! to what that server sent.

use super::exchange::Exchange;
use duskstall_host::testing::answers::{error, registrar_done, registrar_refused};
use duskstall_host::testing::received::Received;
use duskstall_host::{
    Board, FreshNonce, Outcome, Registrar, RegistrarAnswer, Slot, Transaction, TransactionState,
    Verdict,
};

const BOARD: Board = Board(7);
const GOOD: Verdict = Verdict::Good(BOARD);
const NEIGHBOUR: Verdict = Verdict::Good(Board(8));

/// Handed in where nothing is sent, or an error.
const OTHER: FreshNonce = FreshNonce([0x5A; 16]);

/// The request is taken, and the host issues the certificate that OpenSSL's
/// server issued.
fn grant(exchange: &Exchange) -> Registrar {
    let [request, response, ..] = exchange.enrolment();
    let mut registrar = Registrar::new();
    refuse(&mut registrar, request, Verdict::Bad, 7, 1);
    let answer = registrar.message(&request.bytes, GOOD, OTHER);
    assert_eq!(answer, registrar_done(0, None));
    holds(&registrar, asked(request));

    let hash = response.issued().expect("the server issued a certificate");
    let answer = registrar.issue(request.id(), response.drawn_nonce(), hash);
    assert_eq!(answer, registrar_done(0, Some(response.as_outgoing())));
    holds(&registrar, granted(exchange));
    registrar
}

fn asked(request: &Received) -> Transaction {
    Transaction {
        id: request.id(),
        board: BOARD,
        kind: request.reading.kind,
        taken: request.sender_nonce(),
        state: TransactionState::Asked,
        ..Transaction::default()
    }
}

fn granted(exchange: &Exchange) -> Transaction {
    let [request, response, ..] = exchange.enrolment();
    Transaction {
        sent: response.sender_nonce(),
        hash: response.issued().unwrap_or_default(),
        state: TransactionState::Granted,
        ..asked(request)
    }
}

/// The only transaction of the table.
fn holds(registrar: &Registrar, transaction: Transaction) {
    let found: Vec<_> = registrar.transactions().collect();
    assert_eq!(found, [(Slot(0), transaction)]);
}

/// Refused with an error message, and the table stays.
fn refuse(registrar: &mut Registrar, message: &Received, verdict: Verdict, number: u8, bit: u8) {
    let before = registrar.clone();
    let answer = registrar.message(&message.bytes, verdict, OTHER);
    let sent = error(message.id(), OTHER, message.sender_nonce(), bit);
    assert_eq!(answer, registrar_refused(number, Some(bit), Some(sent)));
    assert_eq!(*registrar, before);
}

/// OpenSSL's certConf confirms, and copies with another hash do not.
pub fn confirms(exchange: &Exchange) {
    let mut registrar = grant(exchange);
    let [_, _, cert_conf, pkiconf] = exchange.enrolment();
    let altered = cert_conf.altered(cert_conf.reading.cert_hash);
    refuse(&mut registrar, &altered, Verdict::Bad, 7, 1);
    refuse(&mut registrar, &altered, GOOD, 19, 4);
    let altered = cert_conf.altered(cert_conf.reading.recip_nonce);
    refuse(&mut registrar, &altered, GOOD, 14, 13);
    refuse(&mut registrar, cert_conf, NEIGHBOUR, 13, 23);

    let answer = registrar.message(&cert_conf.bytes, GOOD, pkiconf.drawn_nonce());
    let done = registrar_done(0, Some(pkiconf.as_outgoing()));
    assert_eq!(answer, done);
    let confirmed = Transaction {
        taken: cert_conf.sender_nonce(),
        state: TransactionState::Confirmed,
        ..granted(exchange)
    };
    holds(&registrar, confirmed);

    let again = RegistrarAnswer {
        outcome: Outcome::Again,
        ..done
    };
    let answer = registrar.message(&cert_conf.bytes, GOOD, pkiconf.drawn_nonce());
    assert_eq!(answer, again);
    holds(&registrar, confirmed);
}

/// What the registrar says of each request of any transaction, 0 for done and
/// else the refusal's number, and where its transaction ends. The host issues
/// where OpenSSL's server issued, and refuses where it did not.
pub fn says(exchange: &Exchange) -> (Vec<u8>, Option<TransactionState>) {
    let mut registrar = Registrar::new();
    let mut said = Vec::new();
    for request in &exchange.requests {
        let answer = registrar.message(&request.bytes, GOOD, OTHER);
        said.push(answer.outcome.refusal().map_or(0, |refusal| refusal.number));
        if said == [0] {
            let answer = match exchange.granting() {
                Some((response, hash)) => {
                    registrar.issue(request.id(), response.drawn_nonce(), hash)
                }
                None => registrar.refuse(request.id(), exchange.responses[0].drawn_nonce()),
            };
            assert_eq!(answer.outcome, Outcome::Done);
        }
    }
    let found = registrar.find(exchange.requests[0].id());
    (said, found.map(|(_, transaction)| transaction.state))
}
