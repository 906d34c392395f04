//! Calls drawn at random on both ends until every refusal was met.

use duskstall_host::testing::exchange::{Certificate, Parts};
use duskstall_host::testing::random::Random;
use duskstall_host::testing::writing::order;
use duskstall_host::{write, Enrolment, FreshNonce, Given, Transaction, TransactionId, Verdict};
use duskstall_host::{Board, CertHash, Decision, EndEntity, Nonce, Outcome, Refusal, Registrar};
use duskstall_host::{ENROLMENT_STATES, MESSAGE_LIMIT, SLOTS};
use duskstall_host::{TRANSACTION_BYTES, TRANSACTION_STATES};
use std::collections::{BTreeMap, BTreeSet};

const CALLS: usize = 200_000;

/// Few values, so that they meet.
fn sixteen(random: &mut Random) -> [u8; 16] {
    [random.below(2) as u8; 16]
}

fn hash(random: &mut Random) -> CertHash {
    CertHash([random.below(2) as u8; 32])
}

fn maybe_sixteen(random: &mut Random) -> Option<Vec<u8>> {
    let other = random.pick(&[None, Some(vec![0; 15])]).clone();
    match random.below(8) {
        0 => other,
        _ => Some(sixteen(random).to_vec()),
    }
}

fn message(random: &mut Random) -> Vec<u8> {
    let parts = Parts {
        kind: *random.pick(&[0, 1, 2, 3, 4, 7, 8, 19, 23, 24, 24, 24]),
        version: if random.once_in(8) { 1 } else { 2 },
        protection_alg: !random.once_in(8),
        protection: !random.once_in(8),
        id: maybe_sixteen(random),
        sender_nonce: maybe_sixteen(random),
        recip_nonce: maybe_sixteen(random),
        entries: 1 + usize::from(random.once_in(8)),
        number: *random.pick(&[0, 0, -1]),
        status: *random.pick(&[Some(0), Some(2), Some(0), Some(3)]),
        hash: hash(random).0.to_vec(),
        hash_alg: random.once_in(8),
        certificate: *random.pick(&[Certificate::Plain, Certificate::Nothing]),
    };
    let mut bytes = parts.encode();
    if random.once_in(16) {
        bytes.truncate(random.below(bytes.len()));
    }
    bytes
}

fn registrar(random: &mut Random) -> Registrar {
    let used = *random.pick(&[0, 1, SLOTS]);
    let id = TransactionId(sixteen(random));
    let mut table = Registrar::new().as_bytes().to_vec();
    for bytes in table.chunks_mut(TRANSACTION_BYTES).take(used) {
        let transaction = Transaction {
            id,
            board: Board(1),
            kind: *random.pick(&[0, 4]),
            taken: Nonce(sixteen(random)),
            sent: Nonce(sixteen(random)),
            hash: hash(random),
            state: *random.pick(&TRANSACTION_STATES[1..]),
        };
        bytes.copy_from_slice(&transaction.pack());
    }
    Registrar::from_bytes(&table).expect("every state is one")
}

fn end_entity(random: &mut Random) -> EndEntity {
    let enrolment = Enrolment {
        id: TransactionId(sixteen(random)),
        kind: *random.pick(&[0, 4]),
        last: Nonce(sixteen(random)),
        taken: Nonce(sixteen(random)),
        hash: hash(random),
        state: *random.pick(&ENROLMENT_STATES),
    };
    EndEntity::from_bytes(&enrolment.pack()).expect("every state is one")
}

fn call(random: &mut Random) -> Option<Refusal> {
    let mut registrar = registrar(random);
    let mut board = end_entity(random);
    let message = message(random);
    let id = TransactionId(sixteen(random));
    let nonce = FreshNonce(sixteen(random));
    let decision = Decision {
        accept: true,
        hash: hash(random),
    };
    let verdict = *random.pick(&[
        Verdict::Bad,
        Verdict::Good(Board(1)),
        Verdict::Good(Board(2)),
    ]);
    let outcome: Outcome = match random.below(16) {
        8 => return writes(random),
        0 => registrar.issue(id, nonce, decision.hash).outcome,
        1 => registrar.close(id).outcome,
        2 => board.time_out().outcome,
        3 => return EndEntity::start(random.byte(), id, nonce).err(),
        4..=7 => {
            board
                .message(&message, verdict != Verdict::Bad, decision, nonce)
                .outcome
        }
        _ => registrar.message(&message, verdict, nonce).outcome,
    };
    outcome.refusal()
}

/// A message with a name, an identifier and a buffer of some lengths.
fn writes(random: &mut Random) -> Option<Refusal> {
    let bytes = vec![0x88; MESSAGE_LIMIT];
    let name = *random.pick(&[&[0x88, 0x00][..], &[0x88]]);
    let given = Given {
        sender_kid: random.once_in(2).then_some(&bytes),
        ..Given::new(2, name, name)
    };
    let mut buffer = [0; 100];
    let room = *random.pick(&[buffer.len(), 0]);
    write(&order(19), &given, &mut buffer[..room]).err()
}

/// The numbers of the refusals and the bits that came with each.
pub fn met() -> BTreeMap<u8, BTreeSet<Option<u8>>> {
    let mut random = Random::new(0x7);
    let mut met: BTreeMap<u8, BTreeSet<Option<u8>>> = BTreeMap::new();
    for _ in 0..CALLS {
        if let Some(refusal) = call(&mut random) {
            met.entry(refusal.number).or_default().insert(refusal.bit);
        }
    }
    met
}
