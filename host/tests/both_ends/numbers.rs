//! What the host says by a number, for each of the 256: 1 alone is a good
//! verdict, and 1 alone accepts a certificate.

use duskstall_host::library::{self, DECISION_ACCEPT, DECISION_DECLINE, VERDICT_BAD, VERDICT_GOOD};
use duskstall_host::testing::exchange::Parts;
use duskstall_host::{
    Board, CertHash, Enrolment, EnrolmentState, FreshNonce, Nonce, Outgoing, Transaction,
    TransactionId, TransactionState, END_ENTITY_ANSWER_BYTES, REGISTRAR_ANSWER_BYTES, TABLE_BYTES,
    TRANSACTION_BYTES,
};
use std::collections::BTreeMap;

const NUMBERS: std::ops::RangeInclusive<u8> = 0..=u8::MAX;

const ID: TransactionId = TransactionId([0x11; 16]);
const BOARD: Board = Board(7);
const HASH: CertHash = CertHash([0xAB; 32]);

/// The last nonces of either end, and the one that is handed in.
const SENT: Nonce = Nonce([0x22; 16]);
const TAKEN: Nonce = Nonce([0x33; 16]);
const FRESH: FreshNonce = FreshNonce([0x44; 16]);

/// The refusal of a bad verdict, and its bit.
const BAD: [u8; 2] = [7, 1];

/// How many calls gave each answer: their code, the refusal's number, and the
/// state that they left.
type Counts = BTreeMap<(u64, u8, String), usize>;

fn counts<const KINDS: usize>(kinds: [(u64, u8, &str, usize); KINDS]) -> Counts {
    let kinds = kinds.into_iter();
    kinds
        .map(|(code, refusal, state, count)| ((code, refusal, state.to_string()), count))
        .collect()
}

/// The message that answers `to` and names a certificate by its hash.
fn message(kind: u8, sender_nonce: Nonce, to: Option<Nonce>) -> Vec<u8> {
    let outgoing = Outgoing {
        kind,
        id: ID,
        sender_nonce,
        recip_nonce: to,
        status: Some(0),
        hash: Some(HASH),
        failure: None,
        number: Some(0),
    };
    Parts::of(&outgoing).encode()
}

fn table_with(state: TransactionState) -> Vec<u8> {
    let transaction = Transaction {
        id: ID,
        board: BOARD,
        kind: 0,
        taken: TAKEN,
        sent: SENT,
        hash: HASH,
        state,
    };
    let mut table = transaction.pack();
    table.resize(TABLE_BYTES, 0);
    table
}

/// All verdicts on a message to the registrar.
fn at_the_registrar(table: &[u8], message: &[u8], counts: &mut Counts) {
    for good in NUMBERS {
        let mut after = table.to_vec();
        let mut answer = [0; REGISTRAR_ANSWER_BYTES];
        let code =
            library::registrar_message(&mut after, message, good, BOARD.0, &FRESH.0, &mut answer);
        let slot = Transaction::unpack(&after[..TRANSACTION_BYTES]).expect("a transaction");
        if good == 1 {
            assert_eq!((code, slot.board), (0, BOARD));
        } else {
            assert_eq!((code, &answer[1..3]), (2, &BAD[..]), "verdict {good}");
            assert_eq!(after, table, "verdict {good}");
        }
        let state = format!("{:?}", slot.state);
        *counts.entry((code, answer[1], state)).or_default() += 1;
    }
}

#[test]
fn one_number_is_good_at_the_registrar() {
    let mut seen = Counts::new();
    let request = message(0, TAKEN, None);
    at_the_registrar(&[0; TABLE_BYTES], &request, &mut seen);
    let cert_conf = message(24, TAKEN, Some(SENT));
    let granted = table_with(TransactionState::Granted);
    at_the_registrar(&granted, &cert_conf, &mut seen);
    println!("verdicts at the registrar: {seen:?}");
    let expected = counts([
        (0, 0, "Asked", 1),
        (0, 0, "Confirmed", 1),
        (2, 7, "Free", 255),
        (2, 7, "Granted", 255),
    ]);
    assert_eq!(seen, expected);
}

fn enrolment_with(state: EnrolmentState) -> Vec<u8> {
    let enrolment = Enrolment {
        id: ID,
        kind: 0,
        last: SENT,
        taken: TAKEN,
        hash: HASH,
        state,
    };
    enrolment.pack()
}

/// All verdicts and decisions on a message to an end entity. `accepted` and
/// `declined`: the state that follows a good one, by the decision.
fn at_an_end_entity(
    enrolment: &[u8],
    message: &[u8],
    [accepted, declined]: [EnrolmentState; 2],
    counts: &mut Counts,
) {
    for (good, accept) in NUMBERS.flat_map(|good| NUMBERS.map(move |accept| (good, accept))) {
        let mut after = enrolment.to_vec();
        let mut answer = [0; END_ENTITY_ANSWER_BYTES];
        let code = library::end_entity_message(
            &mut after,
            message,
            good,
            accept,
            &HASH.0,
            &FRESH.0,
            &mut answer,
        );
        let state = Enrolment::unpack(&after).expect("an enrolment").state;
        if good == 1 {
            let expected = if accept == 1 { accepted } else { declined };
            assert_eq!((code, state), (0, expected), "decision {accept}");
        } else {
            assert_eq!((code, &answer[1..3]), (2, &BAD[..]), "verdict {good}");
            assert_eq!(after, enrolment, "verdict {good}");
        }
        if let (0, EnrolmentState::Declining) = (code, state) {
            // The certConf that is to be sent says rejection.
            assert_eq!((answer[13], &answer[65..69]), (1, &[0, 0, 0, 2][..]));
        }
        let state = format!("{state:?}");
        *counts.entry((code, answer[1], state)).or_default() += 1;
    }
}

#[test]
fn one_number_is_good_and_one_accepts_at_an_end_entity() {
    use EnrolmentState::{Asked, Confirming, Declining, Sure};
    let mut seen = Counts::new();
    let response = message(1, TAKEN, Some(SENT));
    let asked = enrolment_with(Asked);
    at_an_end_entity(&asked, &response, [Confirming, Declining], &mut seen);
    let pkiconf = message(19, TAKEN, Some(SENT));
    let confirming = enrolment_with(Confirming);
    at_an_end_entity(&confirming, &pkiconf, [Sure, Sure], &mut seen);
    println!("verdicts and decisions at an end entity: {seen:?}");
    let expected = counts([
        (0, 0, "Confirming", 1),
        (0, 0, "Declining", 255),
        (0, 0, "Sure", 256),
        (2, 7, "Asked", 255 * 256),
        (2, 7, "Confirming", 255 * 256),
    ]);
    assert_eq!(seen, expected);
}

#[test]
fn the_named_numbers() {
    assert_eq!([VERDICT_GOOD, DECISION_ACCEPT], [1, 1]);
    assert_eq!([VERDICT_BAD, DECISION_DECLINE], [0, 0]);
}
