//! The compiled library against the model: every number, answer and state, and
//! every byte around them, on lists of calls drawn at random from a fixed seed.
//! And every number by which the host says yes or no.

#[path = "both_ends/calls.rs"]
mod calls;
#[path = "both_ends/change.rs"]
mod change;
#[path = "both_ends/draw.rs"]
mod draw;
#[path = "both_ends/numbers.rs"]
mod numbers;
#[path = "both_ends/pack.rs"]
mod pack;
#[path = "both_ends/pool.rs"]
mod pool;
#[path = "both_ends/tally.rs"]
mod tally;

use duskstall_host::library::{self, NO_STATE};
use duskstall_host::testing::random::Random;
use duskstall_host::{model, Enrolment, Transaction, END_ENTITY_ANSWER_BYTES};
use duskstall_host::{REGISTRAR_ANSWER_BYTES, TABLE_BYTES, TRANSACTION_BYTES};
use pool::Pool;
use std::time::Instant;
use tally::{End, Record, Tally};

/// Calls compared, at both ends together.
const CALLS: usize = 2_000_000;

/// Calls on one state before another is drawn.
const LIST: usize = 40;

const REGISTRAR: End = End {
    name: "registrar",
    answer: REGISTRAR_ANSWER_BYTES,
    rows: &[
        1, 2, 3, 4, 5, 6, 7, 8, 9, 10, 11, 12, 13, 14, 15, 16, 17, 18, 19, 20, 30, 31,
    ],
    again: true,
    records: |table| table.chunks(TRANSACTION_BYTES).map(transaction).collect(),
    states: &[
        "Asked",
        "Confirmed",
        "Declined",
        "Granted",
        "Lapsed",
        "Refused",
    ],
};

const END_ENTITY: End = End {
    name: "end entity",
    answer: END_ENTITY_ANSWER_BYTES,
    rows: &[1, 2, 3, 4, 5, 6, 7, 8, 12, 14, 15, 16, 18, 20, 21, 31, 32],
    again: false,
    records: |enrolment| vec![self::enrolment(enrolment)],
    states: &[
        "Asked",
        "Confirming",
        "Declined",
        "Declining",
        "Failed",
        "Sure",
        "Unsettled",
    ],
};

fn transaction(bytes: &[u8]) -> Option<Record> {
    let found = Transaction::unpack(bytes)?;
    Some((found.kind, format!("{:?}", found.state)))
}

fn enrolment(bytes: &[u8]) -> Option<Record> {
    let found = Enrolment::unpack(bytes)?;
    Some((found.kind, format!("{:?}", found.state)))
}

#[test]
fn two_million_calls() {
    let started = Instant::now();
    let mut random = Random::new(0x9483);
    let mut registrar = Tally::new(REGISTRAR);
    let mut end_entity = Tally::new(END_ENTITY);
    while registrar.calls() + end_entity.calls() < CALLS {
        let pool = Pool::new(&mut random);
        let mut table = draw::table(&mut random, &pool);
        let mut enrolment = draw::enrolment(&mut random, &pool);
        for _ in 0..LIST {
            let call = draw::registrar_call(&mut random, &pool, &table);
            registrar.compare(&call, &mut table, &mut random);
            // Most enrolments are soon over, so they are drawn more often.
            if random.once_in(6) {
                enrolment = draw::enrolment(&mut random, &pool);
            }
            let call = draw::end_entity_call(&mut random, &pool, &enrolment);
            end_entity.compare(&call, &mut enrolment, &mut random);
        }
    }
    registrar.report();
    end_entity.report();
    println!("{:.1?}", started.elapsed());
    registrar.assert_whole();
    end_entity.assert_whole();
}

#[test]
fn empty_table() {
    let expected = pack::table(&model::Registrar::default());
    let mut bytes = vec![0xA5; TABLE_BYTES];
    assert_eq!(library::registrar_empty(&mut bytes), 0);
    assert_eq!(bytes, expected);
    for len in (0..=2 * TABLE_BYTES).filter(|len| *len != TABLE_BYTES) {
        let mut bytes = vec![0xA5; len];
        assert_eq!(library::registrar_empty(&mut bytes), NO_STATE);
        assert!(bytes.iter().all(|byte| *byte == 0xA5));
    }
}
