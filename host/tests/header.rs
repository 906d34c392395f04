//! Holds `include/duskstall.h` to this crate: sizes, codes, verdicts, decisions,
//! states, places, and the refusals with their bits and words.
//! `examples/header_check.c` holds it to the library from C.

#[path = "header/outgoing.rs"]
mod outgoing;
#[path = "header/refusals.rs"]
mod refusals;

use duskstall_host::testing::der::hex;
use duskstall_host::testing::messages;
use duskstall_host::testing::papers::with_comma;
use duskstall_host::{compiled, library, Board, CertHash, Given, Nonce, Refusal, TransactionId};
use duskstall_host::{Enrolment, Reading, Span, Transaction, ENROLMENT_STATES, TRANSACTION_STATES};
use duskstall_host::{END_ENTITY_ANSWER_BYTES, ENROLMENT_BYTES, REGISTRAR_ANSWER_BYTES};
use duskstall_host::{MESSAGE_LIMIT, OUTGOING_BYTES, SLOTS, TABLE_BYTES, TRANSACTION_BYTES};
use std::collections::{BTreeMap, BTreeSet};
use std::fmt::Debug;

const HEADER: &str = include_str!("../../include/duskstall.h");

/// The value of a constant, which the header sets once: a number, or a sum of
/// products of numbers and other constants.
fn value(name: &str) -> usize {
    let header = HEADER.replace("\\\n", " ");
    let values: Vec<&str> = header
        .lines()
        .filter_map(|line| {
            let (before, after) = line.split_once(&format!("DUSKSTALL_{name} "))?;
            let set = before.trim() == "#define" || after.starts_with("= ");
            set.then(|| after.trim_start_matches("= "))
        })
        .collect();
    let [value] = values[..] else {
        panic!("{name} is set {} times", values.len());
    };
    let sum = value.split(['/', ',']).next().expect(name).trim();
    let sum = sum.trim_start_matches('(').trim_end_matches(')');
    let products = sum.split('+');
    products
        .map(|product| product.split('*').map(factor).product::<usize>())
        .sum()
}

fn factor(factor: &str) -> usize {
    let factor = factor.trim();
    match factor.strip_prefix("DUSKSTALL_") {
        Some(name) => value(name),
        None => factor.parse().expect(factor),
    }
}

#[test]
fn sizes_and_codes() {
    let code = |code: u64| code as usize;
    for (name, expected) in [
        ("MESSAGE_LIMIT", MESSAGE_LIMIT),
        ("SLOTS", SLOTS),
        ("TRANSACTION_BYTES", TRANSACTION_BYTES),
        ("TABLE_BYTES", TABLE_BYTES),
        ("ENROLMENT_BYTES", ENROLMENT_BYTES),
        // A record ends with its last field, which is one byte, and an outgoing
        // message with its certReqId.
        ("TRANSACTION_STATE", TRANSACTION_BYTES - 1),
        ("ENROLMENT_STATE", ENROLMENT_BYTES - 1),
        ("CERT_REQ_ID_BYTES", size_of::<i32>()),
        ("OUTGOING_CERT_REQ_ID", OUTGOING_BYTES - size_of::<i32>()),
        (
            "REGISTRAR_OUTGOING",
            REGISTRAR_ANSWER_BYTES - OUTGOING_BYTES,
        ),
        (
            "END_ENTITY_OUTGOING",
            END_ENTITY_ANSWER_BYTES - OUTGOING_BYTES,
        ),
        ("REGISTRAR_ANSWER_BYTES", REGISTRAR_ANSWER_BYTES),
        ("END_ENTITY_ANSWER_BYTES", END_ENTITY_ANSWER_BYTES),
        ("ID_BYTES", size_of::<TransactionId>()),
        ("NONCE_BYTES", size_of::<Nonce>()),
        ("HASH_BYTES", size_of::<CertHash>()),
        ("FIELDS", compiled::FIELDS),
        ("GIVEN", library::GIVEN),
        ("OUTGOING_BYTES", OUTGOING_BYTES),
        ("NO_STATE", code(library::NO_STATE)),
        ("BAD_LENGTH", code(library::BAD_LENGTH)),
        ("NO_ROOM", code(library::NO_ROOM)),
        ("FEW_FIELDS", code(compiled::TOO_FEW_FIELDS)),
    ] {
        assert_eq!(value(name), expected, "{name}");
    }
}

#[test]
fn verdicts_and_decisions() {
    for (name, expected) in [
        ("VERDICT_GOOD", library::VERDICT_GOOD),
        ("VERDICT_BAD", library::VERDICT_BAD),
        ("DECISION_ACCEPT", library::DECISION_ACCEPT),
        ("DECISION_DECLINE", library::DECISION_DECLINE),
    ] {
        assert_eq!(value(name), expected.into(), "{name}");
    }
}

#[test]
fn states() {
    let check = |prefix: &str, state: &dyn Debug, number: usize| {
        let name = format!("{prefix}_{state:?}").to_uppercase();
        assert_eq!(value(&name), number, "{name}");
    };
    for (number, state) in TRANSACTION_STATES.iter().enumerate() {
        check("TRANSACTION", state, number);
    }
    for (number, state) in ENROLMENT_STATES.iter().enumerate() {
        check("ENROLMENT", state, number);
    }
}

#[test]
fn kinds() {
    for (number, name) in messages::KIND_NAMES.iter().enumerate() {
        assert_eq!(value(&name.to_uppercase()), number, "{name}");
    }
}

#[test]
fn rules() {
    for (name, message) in [
        ("TAG", "0000"),
        ("LENGTH", "3080"),
        ("FORM", "2200"),
        ("CONTENT", "010101"),
        ("GRAMMAR", "3000"),
    ] {
        let refused = compiled::read(&hex(message)).expect_err(name);
        let rule = value(&format!("RULE_{name}"));
        assert_eq!(usize::from(refused.rule), rule, "{name}");
    }
}

#[test]
fn places_of_a_transaction_and_an_enrolment() {
    let id = TransactionId([1; 16]);
    let hash = CertHash([2; 32]);
    let transaction = Transaction {
        id,
        board: Board(0x0304),
        kind: 5,
        taken: Nonce([6; 16]),
        sent: Nonce([7; 16]),
        hash,
        state: TRANSACTION_STATES[6],
    };
    let enrolment = Enrolment {
        id,
        kind: 5,
        last: Nonce([8; 16]),
        taken: Nonce([6; 16]),
        hash,
        state: ENROLMENT_STATES[6],
    };
    for (bytes, record, places) in [
        (
            transaction.pack(),
            "TRANSACTION",
            &[("BOARD", 3), ("SENT", 7)][..],
        ),
        (enrolment.pack(), "ENROLMENT", &[("LAST", 8)]),
    ] {
        let shared = [
            ("ID", 1),
            ("KIND", 5),
            ("TAKEN", 6),
            ("HASH", 2),
            ("STATE", 6),
        ];
        for (field, first) in shared.iter().chain(places) {
            let place = value(&format!("{record}_{field}"));
            assert_eq!(bytes[place], *first, "{record}_{field}");
            assert!(place == 0 || bytes[place - 1] != *first || *field == "STATE");
        }
    }
}

#[test]
fn places_of_a_reading() {
    let mut seen = BTreeSet::new();
    for message in messages::bases() {
        let message = message.encode();
        let mut fields = [0; compiled::FIELDS];
        assert_eq!(compiled::read_fields(&message, &mut fields), 0);
        let reading = compiled::read(&message).expect("it was clean");
        for (name, number) in numbers(&reading) {
            let place = value(&format!("FIELD_{name}"));
            assert_eq!(fields[place], number, "{name}");
            seen.extend((number != 0).then_some(place));
        }
        for (name, part) in parts(&reading) {
            let place = value(&format!("FIELD_{name}"));
            let found = [fields[place] as usize, fields[place + 1] as usize];
            assert_eq!(found, [part.start, part.len], "{name}");
            seen.extend(
                (part.start != 0)
                    .then_some([place, place + 1])
                    .into_iter()
                    .flatten(),
            );
        }
    }
    // Each place held something in one message or another.
    assert_eq!(seen, (0..compiled::FIELDS).collect());
}

fn numbers(reading: &Reading) -> [(&'static str, u64); 7] {
    [
        ("KIND", reading.kind.into()),
        ("VERSION", reading.version.into()),
        ("ENTRIES", reading.entries as u64),
        ("CERT_REQ_ID", reading.number.into()),
        ("HAS_STATUS", reading.has_status.into()),
        ("STATUS", reading.status.into()),
        ("PROTECTED_LENGTH", reading.protected_len as u64),
    ]
}

fn parts(reading: &Reading) -> [(&'static str, Span); 20] {
    [
        ("HEADER", reading.header),
        ("BODY", reading.body),
        ("PROTECTION", reading.protection),
        ("EXTRA_CERTS", reading.extra_certs),
        ("SENDER", reading.sender),
        ("RECIPIENT", reading.recipient),
        ("MESSAGE_TIME", reading.message_time),
        ("PROTECTION_ALG", reading.protection_alg),
        ("SENDER_KID", reading.sender_kid),
        ("RECIP_KID", reading.recip_kid),
        ("TRANSACTION_ID", reading.transaction_id),
        ("SENDER_NONCE", reading.sender_nonce),
        ("RECIP_NONCE", reading.recip_nonce),
        ("FREE_TEXT", reading.free_text),
        ("GENERAL_INFO", reading.general_info),
        ("CA_PUBS", reading.ca_pubs),
        ("CERT_HASH", reading.cert_hash),
        ("HASH_ALG", reading.hash_alg),
        ("CERTIFICATE", reading.certificate),
        ("REQUEST", reading.request),
    ]
}

/// Each part of a message that is written, by its place in the header and as this
/// crate lays it out: the parts of these lengths lie one after the other from 1.
#[test]
fn places_of_what_is_given() {
    let all = [0; GIVEN_NAMES.len() + 1];
    let part = |number: usize| Some(&all[..number + 1]);
    let given = Given {
        message_time: part(2),
        protection_alg: part(3),
        sender_kid: part(4),
        recip_kid: part(5),
        free_text: part(6),
        general_info: part(7),
        protection: part(8),
        request: part(9),
        certificate: part(10),
        ..Given::new(2, &all[..1], &all[..2])
    };
    let (source, places) = given.laid_out();
    let mut start = 1;
    for (number, name) in GIVEN_NAMES.iter().enumerate() {
        let place = value(&format!("GIVEN_{name}"));
        assert_eq!(places[place..place + 2], [start, number as u64 + 1]);
        start += number as u64 + 1;
    }
    assert_eq!(source.len() as u64, start);
}

const GIVEN_NAMES: [&str; library::GIVEN / 2] = [
    "SENDER",
    "RECIPIENT",
    "MESSAGE_TIME",
    "PROTECTION_ALG",
    "SENDER_KID",
    "RECIP_KID",
    "FREE_TEXT",
    "GENERAL_INFO",
    "PROTECTION",
    "REQUEST",
    "CERTIFICATE",
];

/// The rows of the table of refusals: number, bit and words.
fn rows() -> Vec<(u8, Option<u8>, &'static str)> {
    let rows = HEADER.split("row(DUSKSTALL_REFUSED_").skip(1);
    rows.map(|row| {
        let (numbers, rest) = row.split_once('"').expect("the words");
        let (words, _) = rest.split_once("\")").expect("the end of the row");
        let numbers: Vec<u8> = numbers
            .split(',')
            .filter_map(|number| number.trim().parse().ok())
            .collect();
        let bit = Some(numbers[1]).filter(|bit| usize::from(*bit) != value("NO_BIT"));
        (numbers[0], bit, words)
    })
    .collect()
}

#[test]
fn refusals_in_words() {
    let limit = with_comma(MESSAGE_LIMIT);
    assert_eq!(rows()[0].2, format!("length 0 or above {limit}"));
    for (number, bit, words) in rows() {
        let refusal = Refusal {
            number,
            bit,
            fault: None,
        };
        assert_eq!(refusal.reason(), words, "{number}");
    }
}

#[test]
fn refusals_and_their_bits() {
    let mut bits: BTreeMap<u8, BTreeSet<Option<u8>>> = BTreeMap::new();
    for (number, bit, _) in rows() {
        bits.entry(number).or_default().insert(bit);
    }
    // The one row with two bits: "11 if Confirmed, else 2".
    bits.entry(20).or_default().insert(Some(11));
    assert_eq!(refusals::met(), bits);

    // The bits that have names are those of the rows.
    let (_, names) = HEADER.split_once("enum duskstall_failure {").expect("it");
    let (names, _) = names.split_once('}').expect("its end");
    let named = names.split("= ").skip(1).map(|rest| {
        let digits = rest.split(|c: char| !c.is_ascii_digit()).next();
        let bit: u8 = digits
            .and_then(|digits| digits.parse().ok())
            .expect("a bit");
        Some(bit).filter(|bit| usize::from(*bit) != value("NO_BIT"))
    });
    let of_rows: BTreeSet<Option<u8>> = bits.into_values().flatten().collect();
    assert_eq!(named.collect::<BTreeSet<_>>(), of_rows);
}
