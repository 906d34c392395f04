//! The places of an outgoing message: each message of an enrolment, by the
//! header's places in the library's bytes and as this crate gives it.

use super::value;
use duskstall_host::testing::writing::written;
use duskstall_host::{library, Board, CertHash, Decision, EndEntity, FreshNonce, Nonce, Outgoing};
use duskstall_host::{Enrolment, ENROLMENT_BYTES, REGISTRAR_ANSWER_BYTES};
use duskstall_host::{Registrar, TransactionId, Verdict, END_ENTITY_ANSWER_BYTES};

const ID: TransactionId = TransactionId([1; 16]);
const HASH: CertHash = CertHash([2; 32]);
const BOARD: Verdict = Verdict::Good(Board(3));
const DECISION: Decision = Decision {
    accept: true,
    hash: HASH,
};

/// An outgoing message by the header's places and as this crate gives it.
type Pair = (Outgoing, Option<Outgoing>);

fn chunk<const SIZE: usize>(bytes: &[u8]) -> [u8; SIZE] {
    *bytes.first_chunk().expect("so many bytes")
}

fn by_places(answer: &[u8], end: &str) -> Outgoing {
    let bytes = &answer[value(&format!("{end}_OUTGOING"))..];
    let at = |name: &str| &bytes[value(&format!("OUTGOING_{name}"))..];
    let has = |name: &str| at(name)[0] == 1;
    let kind = at("KIND")[0];
    let outgoing = Outgoing {
        kind,
        id: TransactionId(chunk(at("ID"))),
        sender_nonce: Nonce(chunk(at("SENDER_NONCE"))),
        recip_nonce: has("HAS_RECIP_NONCE").then(|| Nonce(chunk(at("RECIP_NONCE")))),
        status: has("HAS_STATUS").then(|| u32::from_be_bytes(chunk(at("STATUS")))),
        hash: (usize::from(kind) == value("CERTCONF")).then(|| CertHash(chunk(at("HASH")))),
        failure: Some(at("FAILURE")[0]).filter(|bit| usize::from(*bit) != value("NO_BIT")),
        number: has("HAS_CERT_REQ_ID").then(|| i32::from_be_bytes(chunk(at("CERT_REQ_ID")))),
    };
    // The same bytes are handed in for it to be written.
    assert_eq!(bytes[..value("OUTGOING_BYTES")], outgoing.to_bytes());
    outgoing
}

/// The same message at the registrar, by the library and by this crate.
fn takes(registrar: &mut Registrar, message: &Outgoing, nonce: FreshNonce) -> Pair {
    let message = written(message);
    let mut table = *registrar.as_bytes();
    let mut answer = [0; REGISTRAR_ANSWER_BYTES];
    library::registrar_message(&mut table, &message, 1, 3, &nonce.0, &mut answer);
    let given = registrar.message(&message, BOARD, nonce).outgoing;
    (by_places(&answer, "REGISTRAR"), given)
}

fn issues(registrar: &mut Registrar, nonce: FreshNonce) -> Pair {
    let mut table = *registrar.as_bytes();
    let mut answer = [0; REGISTRAR_ANSWER_BYTES];
    library::registrar_issue(&mut table, &ID.0, &nonce.0, &HASH.0, &mut answer);
    let given = registrar.issue(ID, nonce, HASH).outgoing;
    (by_places(&answer, "REGISTRAR"), given)
}

fn starts(kind: u8, nonce: FreshNonce) -> (EndEntity, Pair) {
    let mut enrolment = [0; ENROLMENT_BYTES];
    let mut answer = [0; END_ENTITY_ANSWER_BYTES];
    library::end_entity_start(&mut enrolment, kind, &ID.0, &nonce.0, &mut answer);
    let (board, given) = EndEntity::start(kind, ID, nonce).expect("a kind of request");
    let unpacked = Enrolment::unpack(&enrolment);
    assert_eq!(unpacked, Some(board.enrolment()));
    (board, (by_places(&answer, "END_ENTITY"), Some(given)))
}

fn accepts(board: &mut EndEntity, response: &Outgoing, nonce: FreshNonce) -> Pair {
    let message = written(response);
    let mut enrolment = *board.as_bytes();
    let mut answer = [0; END_ENTITY_ANSWER_BYTES];
    let (state, hash) = (&mut enrolment, &HASH.0);
    library::end_entity_message(state, &message, 1, 1, hash, &nonce.0, &mut answer);
    let given = board.message(&message, true, DECISION, nonce).outgoing;
    (by_places(&answer, "END_ENTITY"), given)
}

/// Request, error, response, certConf and pkiConf of an enrolment.
fn enrolment(kind: u8) -> [Pair; 5] {
    let nonce = |number| FreshNonce([number; 16]);
    let mut registrar = Registrar::new();
    let (mut board, request) = starts(kind, nonce(4));
    registrar.message(&written(&request.0), BOARD, nonce(5));
    let error = takes(&mut registrar, &request.0, nonce(6));
    let response = issues(&mut registrar, nonce(7));
    let cert_conf = accepts(&mut board, &response.0, nonce(8));
    let pkiconf = takes(&mut registrar, &cert_conf.0, nonce(9));
    [request, error, response, cert_conf, pkiconf]
}

#[test]
fn places_of_an_outgoing_message() {
    for (kind, response, number) in [(0, 1, 0), (2, 3, 0), (4, 3, -1), (7, 8, 0)] {
        let messages = enrolment(kind);
        for (by_places, given) in messages {
            assert_eq!(Some(by_places), given);
        }
        let kinds = messages.map(|(outgoing, _)| outgoing.kind);
        assert_eq!(kinds, [kind, 23, response, 24, 19]);
        let numbers = messages.map(|(outgoing, _)| outgoing.number);
        assert_eq!(numbers, [None, None, Some(number), Some(number), None]);
    }
}
