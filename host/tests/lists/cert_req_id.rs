//! certReqId, refusal 16: -1 where the record is of a p10cr and 0 where it is of
//! another request, at both ends. Each right number is taken, every other one
//! refused.

use super::scene::{changed, good, hash, id, Scene};
use duskstall_host::testing::der::hex;
use duskstall_host::testing::ends::{Compiled, Ends, Model};
use duskstall_host::testing::exchange::{Certificate, Parts, P10CR};
use duskstall_host::{EnrolmentState, FreshNonce, TransactionState};

const CR: u8 = 2;

/// The kinds of requests, each with the number of its enrolment.
const KINDS: [(u8, i64); 4] = [(0, 0), (CR, 0), (P10CR, -1), (7, 0)];

/// Both numbers, and some that begin or end like them.
const NUMBERS: [i64; 8] = [0, -1, 1, -2, 255, 256, 0x7FFF_FFFF, -0x8000_0000];

/// The bits of -1 as a positive number, for which five bytes are needed.
const FIVE_BYTES: i64 = 0xFFFF_FFFF;

/// A change to a message.
type Change = fn(&mut Parts);

fn wrong(right: i64) -> impl Iterator<Item = i64> {
    NUMBERS.into_iter().filter(move |number| *number != right)
}

fn with_number(message: &Parts, number: i64) -> Parts {
    changed(message, |parts| parts.number = number)
}

/// Board 0 has asked by a request of this kind.
fn asked<E: Ends>(kind: u8) -> Scene<E> {
    let mut scene = Scene::new();
    let request = scene.start_by(kind, id(1));
    scene.opens(&request, 0, 0);
    scene
}

/// A request by its own kind; a p10cr has no certReqId, whatever is in it.
fn number_of_a_request<E: Ends>() {
    for (kind, right) in KINDS {
        let mut scene = Scene::<E>::new();
        let request = scene.start_by(kind, id(1));
        if kind == P10CR {
            let any = with_number(&request, FIVE_BYTES);
            scene.opens(&any, 0, 0);
            continue;
        }
        for number in wrong(right) {
            scene.refuses(&with_number(&request, number), good(0), 16, 2);
        }
        scene.opens(&request, 0, 0);
    }
}

/// A response by the kind of the enrolment, whether it grants or refuses.
fn number_of_a_response<E: Ends>() {
    for (kind, right) in KINDS {
        let mut scene = asked::<E>(kind);
        let response = scene.issue(id(1), hash(1));
        assert_eq!(response.number, right);
        for number in wrong(right) {
            scene.board_refuses(0, &with_number(&response, number), 16);
        }
        scene.decide(0, &response, true, hash(1));

        let mut scene = asked::<E>(kind);
        let response = scene.refuse(id(1));
        for number in wrong(right) {
            scene.board_refuses(0, &with_number(&response, number), 16);
        }
        scene.board_takes(0, &response, EnrolmentState::Failed);
    }
}

/// A certConf by the kind of the transaction, before it is settled and after.
fn number_of_a_cert_conf<E: Ends>() {
    for ((kind, right), accept) in KINDS
        .into_iter()
        .flat_map(|kind| [(kind, true), (kind, false)])
    {
        let mut scene = asked::<E>(kind);
        let response = scene.issue(id(1), hash(1));
        let cert_conf = scene.decide(0, &response, accept, hash(1));
        assert_eq!(cert_conf.number, right);
        let refuses_others = |scene: &mut Scene<E>| {
            for number in wrong(right) {
                scene.refuses(&with_number(&cert_conf, number), good(0), 16, 2);
            }
        };
        let (settled, sure) = match accept {
            true => (TransactionState::Confirmed, EnrolmentState::Sure),
            false => (TransactionState::Declined, EnrolmentState::Declined),
        };
        refuses_others(&mut scene);
        let pkiconf = scene.settles(&cert_conf, 0, settled);
        refuses_others(&mut scene);
        scene.again(&cert_conf, 0);
        scene.board_takes(0, &pkiconf, sure);
    }
}

/// A cp answers a cr and a p10cr. Of two enrolments with the same id and nonce
/// each takes the cp that the other refuses.
fn cp_by_the_kind_of_the_enrolment<E: Ends>() {
    let mut scene = Scene::<E>::new();
    let nonce = FreshNonce([7; 16]);
    let request = scene.start_with(CR, id(1), nonce);
    scene.start_with(P10CR, id(1), nonce);
    scene.opens(&request, 0, 0);
    let to_cr = scene.issue(id(1), hash(1));
    let to_p10cr = with_number(&to_cr, -1);
    scene.board_refuses(0, &to_p10cr, 16);
    scene.board_refuses(1, &to_cr, 16);
    scene.decide(0, &to_cr, true, hash(1));
    scene.decide(1, &to_p10cr, false, hash(1));
}

/// Two transactions at once: each certConf goes by its own.
fn exchanged_numbers<E: Ends>() {
    for kinds in [[CR, P10CR], [P10CR, CR]] {
        let mut scene = Scene::<E>::new();
        let requests = [(kinds[0], id(1)), (kinds[1], id(2))];
        let requests = requests.map(|(kind, id)| scene.start_by(kind, id));
        scene.opens(&requests[0], 0, 0);
        scene.opens(&requests[1], 1, 1);
        let responses = [scene.issue(id(1), hash(1)), scene.issue(id(2), hash(1))];
        let [first, second] =
            [0, 1].map(|board| scene.decide(board, &responses[board], true, hash(1)));
        scene.refuses(&with_number(&first, second.number), good(0), 16, 2);
        scene.refuses(&with_number(&second, first.number), good(1), 16, 2);
        scene.registrar_says(id(1), TransactionState::Granted);
        scene.registrar_says(id(2), TransactionState::Granted);
        scene.settles(&second, 1, TransactionState::Confirmed);
        scene.settles(&first, 0, TransactionState::Confirmed);
    }
}

/// At the registrar: 16 after 14 and 15, before 17, 18 and 19. For each change
/// the row and its bit, with a wrong number and with the right one.
fn order_at_the_registrar<E: Ends>() {
    let changes: [(Change, [(u8, u8); 2]); 6] = [
        (|parts| parts.recip_nonce = None, [(14, 13), (14, 13)]),
        (|parts| parts.entries = 0, [(15, 2), (15, 2)]),
        (|parts| parts.entries = 2, [(15, 2), (15, 2)]),
        (|parts| parts.hash_alg = true, [(16, 2), (17, 2)]),
        (|parts| parts.status = Some(1), [(16, 2), (18, 2)]),
        (|parts| parts.hash = vec![3; 32], [(16, 2), (19, 4)]),
    ];
    for (kind, right) in KINDS {
        let mut scene = asked::<E>(kind);
        let response = scene.issue(id(1), hash(1));
        let cert_conf = scene.decide(0, &response, true, hash(1));
        for (change, [by_wrong, by_right]) in changes {
            let copy = changed(&cert_conf, change);
            scene.refuses(&copy, good(0), by_right.0, by_right.1);
            for number in wrong(right) {
                let copy = with_number(&copy, number);
                scene.refuses(&copy, good(0), by_wrong.0, by_wrong.1);
            }
        }
        scene.settles(&cert_conf, 0, TransactionState::Confirmed);
    }
}

/// At an end entity: 16 after 14 and 15, before 18, 20 and 21.
fn order_at_an_end_entity<E: Ends>() {
    let changes: [(Change, [u8; 2]); 5] = [
        (|parts| parts.recip_nonce = None, [14, 14]),
        (|parts| parts.entries = 0, [15, 15]),
        (|parts| parts.entries = 2, [15, 15]),
        (|parts| parts.status = Some(3), [16, 18]),
        (|parts| parts.certificate = Certificate::Nothing, [16, 21]),
    ];
    for (kind, right) in KINDS {
        let mut scene = asked::<E>(kind);
        let response = scene.issue(id(1), hash(1));
        let refuses = |scene: &mut Scene<E>, copy: &Parts, [by_wrong, by_right]: [u8; 2]| {
            scene.board_refuses(0, copy, by_right);
            for number in wrong(right) {
                scene.board_refuses(0, &with_number(copy, number), by_wrong);
            }
        };
        for (change, rows) in changes {
            refuses(&mut scene, &changed(&response, change), rows);
        }
        scene.time_out(0, EnrolmentState::Failed);
        refuses(&mut scene, &response, [16, 20]);
    }
}

/// `02 05 00 FF FF FF FF` is not -1, and does not read.
fn number_of_five_bytes<E: Ends>() {
    for (kind, _) in KINDS {
        let mut scene = Scene::<E>::new();
        let request = scene.start_by(kind, id(1));
        if kind != P10CR {
            scene.cannot_read(&with_number(&request, FIVE_BYTES));
        }
        scene.opens(&request, 0, 0);
        let response = scene.issue(id(1), hash(1));
        let longer = with_number(&response, FIVE_BYTES);
        let written = hex("02 05 00 FF FF FF FF");
        assert!(longer.encode().windows(7).any(|bytes| bytes == written));
        scene.board_cannot_read(0, &longer);
        let cert_conf = scene.decide(0, &response, true, hash(1));
        scene.cannot_read(&with_number(&cert_conf, FIVE_BYTES));
    }
}

/// The cp that refuses a p10cr, from its body's bytes, and with 0 in the place of
/// -1.
fn refusing_cp_in_bytes<E: Ends>() {
    let mut scene = asked::<E>(P10CR);
    let response = scene.refuse(id(1));
    let body = |parts: &Parts| parts.node().children()[1].encode();
    let bytes = hex("A3 0E 30 0C 30 0A 30 08 02 01 FF 30 03 02 01 02");
    assert_eq!(body(&response), bytes);
    let with_0 = with_number(&response, 0);
    let bytes = hex("A3 0E 30 0C 30 0A 30 08 02 01 00 30 03 02 01 02");
    assert_eq!(body(&with_0), bytes);
    scene.board_refuses(0, &with_0, 16);
    scene.board_takes(0, &response, EnrolmentState::Failed);
}

on_both!(
    number_of_a_request,
    number_of_a_response,
    number_of_a_cert_conf,
    cp_by_the_kind_of_the_enrolment,
    exchanged_numbers,
    order_at_the_registrar,
    order_at_an_end_entity,
    number_of_five_bytes,
    refusing_cp_in_bytes,
);
