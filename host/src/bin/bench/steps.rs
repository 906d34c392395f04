//! Steps of both ends, with all that the library's boundary does, beside the
//! reading of the step's message alone. Each step is on a new copy of the
//! state, so the copy is timed too.

use crate::measure::medians;
use crate::reading::proved_reading;
use duskstall_host::library;
use duskstall_host::testing::chains::chain_message;
use duskstall_host::testing::writing::written;
use duskstall_host::{Board, CertHash, Decision, EndEntity, FreshNonce, Outgoing, Registrar};
use duskstall_host::{TransactionId, Verdict, END_ENTITY_ANSWER_BYTES};
use duskstall_host::{MESSAGE_LIMIT, REGISTRAR_ANSWER_BYTES, SLOTS};
use std::hint::black_box;

/// Steps in each batch.
const CALLS: usize = 500;

const ID: TransactionId = TransactionId([0xFF; 16]);
const NONCE: FreshNonce = FreshNonce([0x33; 16]);
const HASH: CertHash = CertHash([0xAB; 32]);
const GOOD: Verdict = Verdict::Good(Board(1));

// The numbers that calls give.
const DONE: u64 = 0;
const AGAIN: u64 = 1;
const REFUSED: u64 = 2;

const ACCEPT: Decision = Decision {
    accept: true,
    hash: HASH,
};

/// The messages of an enrolment, the same whatever else is in the table.
struct Messages {
    request: Vec<u8>,
    response: Vec<u8>,
    cert_conf: Vec<u8>,
    pkiconf: Vec<u8>,
}

fn enrol() -> Messages {
    let write = |sent: Option<Outgoing>| written(&sent.expect("it is sent"));
    let (mut end_entity, request) = started(ID);
    let mut registrar = Registrar::new();
    let request = write(Some(request));
    registrar.message(&request, GOOD, NONCE);
    let response = write(registrar.issue(ID, NONCE, HASH).outgoing);
    let cert_conf = write(end_entity.message(&response, true, ACCEPT, NONCE).outgoing);
    let pkiconf = write(registrar.message(&cert_conf, GOOD, NONCE).outgoing);
    Messages {
        request,
        response,
        cert_conf,
        pkiconf,
    }
}

fn started(id: TransactionId) -> (EndEntity, Outgoing) {
    EndEntity::start(0, id, NONCE).expect("an ir can be started")
}

/// A registrar that has taken so many other requests.
fn with_others(count: usize) -> Registrar {
    let mut registrar = Registrar::new();
    for number in 0..count as u8 {
        let (_, request) = started(TransactionId([number; 16]));
        registrar.message(&written(&request), GOOD, NONCE);
    }
    assert_eq!(registrar.transactions().count(), count);
    registrar
}

/// Each step on an idle table and on a full one: of a transaction that is alone
/// in it or the last of all, and of one that is not there.
pub fn at_registrar() {
    let Messages {
        request, cert_conf, ..
    } = enrol();
    let mut tables = [0, SLOTS - 1].map(with_others);
    message_step("request", &tables, &request, DONE);
    for table in &mut tables {
        table.message(&request, GOOD, NONCE);
    }
    issue_step(&tables);
    for table in &mut tables {
        table.issue(ID, NONCE, HASH);
    }
    message_step("certConf", &tables, &cert_conf, DONE);
    for table in &mut tables {
        table.message(&cert_conf, GOOD, NONCE);
    }
    message_step("certConf again", &tables, &cert_conf, AGAIN);
    let unknown = [0, SLOTS].map(with_others);
    message_step("certConf refused", &unknown, &cert_conf, REFUSED);
}

/// A response with a certificate, which a certConf answers, short and as long as
/// a message may be; and the pkiConf that ends it.
pub fn at_end_entity() {
    let Messages {
        response, pkiconf, ..
    } = enrol();
    let (mut end_entity, _) = started(ID);
    board_step("ip at an end entity", &end_entity, &response);
    end_entity.message(&response, true, ACCEPT, NONCE);
    board_step("pkiConf at an end entity", &end_entity, &pkiconf);

    // The id and the recipNonce in its header.
    let [id, nonce] = [[4; 16], [6; 16]];
    let (end_entity, _) = EndEntity::start(0, TransactionId(id), FreshNonce(nonce)).expect("an ir");
    let longest = chain_message(MESSAGE_LIMIT);
    board_step("ip at an end entity", &end_entity, &longest);
}

/// A message at a registrar, which gives this number.
fn message_step(name: &str, tables: &[Registrar; 2], message: &[u8], number: u64) {
    let [mut idle, mut full] = tables.each_ref().map(|registrar| {
        on_table(registrar, number, |table, answer| {
            library::registrar_message(table, message, 1, 1, &NONCE.0, answer)
        })
    });
    let times = medians(CALLS, [&mut idle, &mut full, &mut proved_reading(message)]);
    let what = format!("{name}, {} bytes", message.len());
    print_step(&what, times, "reading alone");
}

fn issue_step(tables: &[Registrar; 2]) {
    let [mut idle, mut full] = tables.each_ref().map(|registrar| {
        on_table(registrar, DONE, |table, answer| {
            library::registrar_issue(table, &ID.0, &NONCE.0, &HASH.0, answer)
        })
    });
    let table = tables[0].as_bytes();
    let mut copy = || {
        black_box(*black_box(table));
    };
    let times = medians(CALLS, [&mut idle, &mut full, &mut copy]);
    print_step("issue", times, "the table's copy alone");
}

/// A call on a new copy of a table, once run to see that it gives this number.
fn on_table<'a>(
    registrar: &'a Registrar,
    number: u64,
    call: impl Fn(&mut [u8], &mut [u8]) -> u64 + 'a,
) -> impl FnMut() + 'a {
    let mut answer = [0; REGISTRAR_ANSWER_BYTES];
    let mut step = move || {
        let mut table = *black_box(registrar.as_bytes());
        let given = call(&mut table, &mut answer);
        black_box((given, table)).0
    };
    assert_eq!(step(), number);
    move || {
        step();
    }
}

fn print_step(what: &str, [idle, full, part]: [f64; 3], name: &str) {
    println!(
        "step {what}: idle table {idle:.1} ns, full table {full:.1} ns, ratio {:.2}; \
         {name} {part:.1} ns",
        full / idle,
    );
}

/// A message at an end entity that takes it.
fn board_step(name: &str, end_entity: &EndEntity, message: &[u8]) {
    let mut answer = [0; END_ENTITY_ANSWER_BYTES];
    let mut step = || {
        let mut enrolment = *black_box(end_entity.as_bytes());
        let (state, hash, nonce) = (&mut enrolment, &HASH.0, &NONCE.0);
        let given = library::end_entity_message(state, message, 1, 1, hash, nonce, &mut answer);
        black_box((given, enrolment)).0
    };
    assert_eq!(step(), DONE);
    let mut run = || {
        step();
    };
    let [step, reading] = medians(CALLS, [&mut run, &mut proved_reading(message)]);
    println!(
        "step {name}, {} bytes: {step:.1} ns; reading alone {reading:.1} ns",
        message.len(),
    );
}
