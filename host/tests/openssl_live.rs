//! Both ends of the compiled library with OpenSSL's CMP over HTTP on loopback,
//! where the machine has it, by messages that our ends decided, the library wrote
//! and the host here protected: OpenSSL's client enrols at our registrar, and our
//! end entity at OpenSSL's mock server.

#[path = "openssl_live/draw.rs"]
mod draw;
#[path = "openssl_live/end_entity.rs"]
mod end_entity;
#[path = "openssl_live/hmac.rs"]
mod hmac;
#[path = "openssl_live/http.rs"]
mod http;
#[path = "openssl_live/openssl.rs"]
mod openssl;
#[path = "openssl_live/protection.rs"]
mod protection;
#[path = "openssl_live/registrar.rs"]
mod registrar;
#[path = "openssl_live/request.rs"]
mod request;
#[path = "openssl_live/sending.rs"]
mod sending;
#[path = "openssl_live/sha1.rs"]
mod sha1;

use duskstall_host::testing::exchange::P10CR;
use duskstall_host::testing::received::Received;
use duskstall_host::testing::sha256::sha256;
use duskstall_host::{CertHash, EnrolmentState, Outgoing, TransactionState};
use openssl::OpenSsl;
use protection::SECRET;
use registrar::{Policy, BOARD};

/// An enrolment by one kind of request.
struct Kind {
    name: &'static str,
    request: u8,
    response: u8,
    /// certReqId in the response (RFC 9810, 5.3.4) and in the certConf.
    number: i32,
    /// What tells OpenSSL's client to do it.
    command: &'static str,
}

const KINDS: [Kind; 4] = [
    Kind {
        name: "ir",
        request: 0,
        response: 1,
        number: 0,
        command: "-cmd ir",
    },
    Kind {
        name: "cr",
        request: 2,
        response: 3,
        number: 0,
        command: "-cmd cr",
    },
    Kind {
        name: "p10cr",
        request: P10CR,
        response: 3,
        number: -1,
        command: "-cmd p10cr -csr new.csr",
    },
    Kind {
        name: "kur",
        request: 7,
        response: 8,
        number: 0,
        command: "-cmd kur -oldcert new.crt",
    },
];

/// Checks each kind, where the machine has OpenSSL.
fn with_openssl(check: impl Fn(&OpenSsl, &Kind)) {
    match OpenSsl::set_up() {
        Some(openssl) => KINDS.iter().for_each(|kind| check(&openssl, kind)),
        None => println!("skipped: no openssl cmp here"),
    }
}

/// The kinds of messages, and their certReqId where they have one.
type Numbers = Vec<(u8, Option<i32>)>;

fn sent(messages: &[Outgoing]) -> Numbers {
    let number = |message: &Outgoing| (message.kind, message.number);
    messages.iter().map(number).collect()
}

fn came(messages: &[Received]) -> Numbers {
    let number = |message: &Received| {
        let reading = &message.reading;
        let number = (reading.entries == 1).then_some(reading.number as i32);
        (reading.kind, number)
    };
    messages.iter().map(number).collect()
}

fn as_given(outgoing: Outgoing) -> Outgoing {
    outgoing
}

const ISSUES: Policy = Policy::Issues(as_given);

/// -1 for 0, and 0 for -1.
fn wrong_number(outgoing: Outgoing) -> Outgoing {
    Outgoing {
        number: outgoing.number.map(|number| !number),
        ..outgoing
    }
}

/// The registrar's only transaction, about the certificate that was issued.
fn holds(host: &registrar::Host, kind: &Kind, state: TransactionState) {
    let hash = CertHash(sha256(&host.certificate));
    assert_eq!(host.table(), [(BOARD, kind.request, state, hash)]);
}

/// The client calls it a failure, and has no certificate.
fn fails(openssl: &OpenSsl, host: &registrar::Host) {
    assert!(!host.success, "{}", openssl.log());
    assert!(!openssl.has("got.crt"));
}

#[test]
fn openssl_enrols_at_our_registrar() {
    with_openssl(|openssl, kind| {
        let host = registrar::run(openssl, kind.command, SECRET, ISSUES);
        let number = Some(kind.number);
        assert_eq!(sent(&host.sent), [(kind.response, number), (19, None)]);
        assert_eq!(came(&host.came)[1..], [(24, number)]);
        assert_eq!(host.said, [0, 0]);
        assert!(host.success, "{}", openssl.log());
        assert_eq!(openssl.read("got.crt"), host.certificate);
        holds(&host, kind, TransactionState::Confirmed);
        let Kind { name, number, .. } = kind;
        println!("openssl's {name} at our registrar: certReqId {number}, Confirmed");
    });
}

/// The client declines what no authority of its own has issued.
#[test]
fn openssl_declines_at_our_registrar() {
    with_openssl(|openssl, kind| {
        let command = format!("{} -out_trusted new.crt", kind.command);
        let host = registrar::run(openssl, &command, SECRET, ISSUES);
        assert_eq!(came(&host.came)[1..], [(24, Some(kind.number))]);
        assert_eq!(host.said, [0, 0]);
        fails(openssl, &host);
        holds(&host, kind, TransactionState::Declined);
        let Kind { name, number, .. } = kind;
        println!("openssl's {name} at our registrar: certReqId {number}, Declined");
    });
}

/// A response with status 2 and no certificate.
#[test]
fn openssl_is_refused_at_our_registrar() {
    with_openssl(|openssl, kind| {
        let host = registrar::run(openssl, kind.command, SECRET, Policy::Refuses);
        assert_eq!(sent(&host.sent), [(kind.response, Some(kind.number))]);
        assert_eq!((host.said.as_slice(), host.came.len()), (&[0][..], 1));
        fails(openssl, &host);
        let none = CertHash::default();
        let refused = (BOARD, kind.request, TransactionState::Refused, none);
        assert_eq!(host.table(), [refused]);
        let (name, words) = (kind.name, openssl.complaint());
        assert!(words.contains("request rejected by server"), "{words}");
        println!("openssl's {name}, refused at our registrar: there {words}");
    });
}

/// What OpenSSL's client says of an error message with status 2 and bit 2.
const READ_OUR_ERROR: &str = "received error:PKIStatus: rejection; PKIFailureInfo: badRequest";

/// Whatever certReqId the cp to a p10cr has, OpenSSL's client confirms with it,
/// and our registrar refuses that; in another response it wants 0 itself.
#[test]
fn response_with_wrong_number_enrols_nobody() {
    with_openssl(|openssl, kind| {
        let host = registrar::run(openssl, kind.command, SECRET, Policy::Issues(wrong_number));
        assert_eq!(sent(&host.sent)[0], (kind.response, Some(!kind.number)));
        let (confirmed, said, complaint): (&[_], &[_], _) = match kind.request {
            P10CR => (&[(24, Some(0))], &[0, 16], READ_OUR_ERROR),
            _ => (&[], &[0], "expected certReqId = 0"),
        };
        assert_eq!(came(&host.came)[1..], *confirmed);
        assert_eq!(host.said, said);
        fails(openssl, &host);
        holds(&host, kind, TransactionState::Granted);
        let Kind { name, number, .. } = kind;
        let (wrong, words) = (!number, openssl.complaint());
        assert!(words.contains(complaint), "{words}");
        println!("openssl's {name}, answered with {wrong}: {said:?} here, there {words}");
    });
}

#[test]
fn openssl_with_another_password_is_refused_by_7() {
    with_openssl(|openssl, kind| {
        let host = registrar::run(openssl, kind.command, "another-secret", ISSUES);
        assert_eq!(host.said, [7]);
        assert_eq!(sent(&host.sent), [(23, None)]);
        fails(openssl, &host);
        assert_eq!(host.table(), []);
        let (name, words) = (kind.name, openssl.complaint());
        println!("openssl's {name} by another password: [7] here, there {words}");
    });
}

/// The enrolment is about the certificate that the server issues.
fn ends(openssl: &OpenSsl, host: &end_entity::Host, state: EnrolmentState) {
    let enrolment = host.board.enrolment();
    let certificate = openssl.read("new.crt");
    let hash = CertHash(sha256(&certificate));
    assert_eq!((enrolment.state, enrolment.hash), (state, hash));
}

/// The mock server takes the certConf of a board that decided like this.
fn settles(accept: bool, state: EnrolmentState) {
    with_openssl(|openssl, kind| {
        let host = end_entity::run(openssl, kind.request, accept, as_given);
        let number = Some(kind.number);
        assert_eq!(sent(&host.sent), [(kind.request, None), (24, number)]);
        assert_eq!(came(&host.came), [(kind.response, number), (19, None)]);
        ends(openssl, &host, state);
        let Kind { name, number, .. } = kind;
        println!("our {name} at openssl's server: certReqId {number}, {state:?}");
    });
}

#[test]
fn our_end_entity_enrols_at_openssl() {
    settles(true, EnrolmentState::Sure);
}

#[test]
fn our_end_entity_declines_at_openssl() {
    settles(false, EnrolmentState::Declined);
}

/// The mock server answers with an error, which leaves the board Unsettled.
#[test]
fn cert_conf_with_wrong_number_is_refused_by_openssl() {
    with_openssl(|openssl, kind| {
        let host = end_entity::run(openssl, kind.request, true, wrong_number);
        let number = Some(kind.number);
        assert_eq!(sent(&host.sent)[1..], [(24, Some(!kind.number))]);
        assert_eq!(came(&host.came), [(kind.response, number), (23, None)]);
        ends(openssl, &host, EnrolmentState::Unsettled);
        let Kind { name, number, .. } = kind;
        let (wrong, words) = (!number, openssl.complaint());
        println!("our {name}, confirmed with {wrong}: there {words}");
    });
}
