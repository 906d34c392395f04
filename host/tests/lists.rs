//! Ten attack and fault lists, and some single cases, from bytes: each call
//! with its whole answer and the state after it, through the compiled library
//! and through the model. "Outside" marks a verdict that the premise of demand
//! 3 rules out.

/// Each list as a test of the library and one of the model.
macro_rules! on_both {
    ($($list:ident),* $(,)?) => {
        mod compiled {
            $(#[test] fn $list() { super::$list::<super::Compiled>(); })*
        }
        mod model {
            $(#[test] fn $list() { super::$list::<super::Model>(); })*
        }
    };
}

#[path = "lists/cert_req_id.rs"]
mod cert_req_id;
#[path = "lists/expected.rs"]
mod expected;
#[path = "lists/scene.rs"]
mod scene;

use duskstall_host::testing::ends::{Compiled, Ends, Model};
use duskstall_host::testing::exchange::Parts;
use duskstall_host::{CertHash, Decision, EnrolmentState, FreshNonce, TransactionId};
use duskstall_host::{TransactionState, Verdict, SLOTS};
use scene::{changed, good, hash, id, Scene};

/// A board with number 1 and id X1 whose certConf is on the line, with its
/// request before and the certConf.
fn confirming<E: Ends>(accept: bool) -> (Scene<E>, Parts, Parts) {
    let mut scene = Scene::new();
    scene.start(id(0));
    let request = scene.start(id(1));
    scene.opens(&request, 1, 0);
    let response = scene.issue(id(1), hash(1));
    let cert_conf = scene.decide(1, &response, accept, hash(1));
    (scene, request, cert_conf)
}

/// Board 0 has asked with id X1, and its request.
fn asked<E: Ends>() -> (Scene<E>, Parts) {
    let mut scene = Scene::new();
    let request = scene.start(id(1));
    scene.opens(&request, 0, 0);
    (scene, request)
}

/// The same with the response on the line, too.
fn granted<E: Ends>() -> (Scene<E>, Parts, Parts) {
    let (mut scene, request) = asked();
    let response = scene.issue(id(1), hash(1));
    (scene, request, response)
}

/// List 1: One board's confirmation must not settle its neighbour's transaction.
fn neighbours_confirmation<E: Ends>() {
    let mut scene = Scene::<E>::new();
    scene.start(id(0));
    let requests = [scene.start(id(1)), scene.start(id(2))];
    scene.opens(&requests[0], 1, 0);
    scene.opens(&requests[1], 2, 1);
    let responses = [scene.issue(id(1), hash(9)), scene.issue(id(2), hash(9))];
    let accepted = scene.decide(1, &responses[0], true, hash(9));
    let declined = scene.decide(2, &responses[1], false, hash(9));

    let moved = changed(&accepted, |parts| parts.id = Some(id(2).0.to_vec()));
    scene.refuses(&moved, Verdict::Bad, 7, 1);
    scene.refuses(&moved, good(1), 13, 23); // outside
    scene.refuses(&moved, good(2), 14, 13); // outside
    let moved = changed(&moved, |parts| {
        parts.recip_nonce = responses[1].sender_nonce.clone();
    });
    scene.refuses(&moved, good(1), 13, 23); // outside

    let pkiconf = scene.settles(&accepted, 1, TransactionState::Confirmed);
    scene.registrar_says(id(2), TransactionState::Granted);
    scene.board_refuses(2, &pkiconf, 12);
    scene.board_says(2, EnrolmentState::Declining);
    scene.board_takes(1, &pkiconf, EnrolmentState::Sure);
    scene.settles(&declined, 2, TransactionState::Declined);
    scene.registrar_says(id(1), TransactionState::Confirmed);
}

/// List 2: A lost pkiconf leaves the board unsettled, never failed.
fn lost_pkiconf<E: Ends>() {
    let (mut scene, _, cert_conf) = confirming::<E>(true);
    let first = scene.settles(&cert_conf, 1, TransactionState::Confirmed);
    scene.time_out(1, EnrolmentState::Unsettled);
    let bare = changed(&cert_conf, |parts| parts.status = None);
    scene.again(&bare, 1);
    scene.board_refuses(1, &first, 20);
    scene.time_out_refused(1);
    scene.registrar_says(id(1), TransactionState::Confirmed);
}

/// List 3: Changed copies of a certConf that was taken.
fn changed_copies<E: Ends>() {
    let (mut scene, _, cert_conf) = confirming::<E>(true);
    scene.settles(&cert_conf, 1, TransactionState::Confirmed);
    let other_nonce = changed(&cert_conf, |parts| parts.sender_nonce = Some(vec![3; 16]));
    scene.refuses(&other_nonce, good(1), 20, 11); // outside
    let rejecting = changed(&cert_conf, |parts| parts.status = Some(2));
    scene.refuses(&rejecting, good(1), 20, 11); // outside
    let other_hash = changed(&cert_conf, |parts| parts.hash = vec![3; 32]);
    scene.refuses(&other_hash, good(1), 19, 4); // outside
    scene.registrar_says(id(1), TransactionState::Confirmed);
}

/// List 4: A repeated request fails the board, and nothing is ever confirmed.
fn repeated_opening<E: Ends>() {
    let (mut scene, request) = asked::<E>();
    let error = scene.refuses(&request, good(0), 10, 21);
    scene.board_takes(0, &error, EnrolmentState::Failed);
    let response = scene.issue(id(1), hash(1));
    scene.board_refuses(0, &response, 20);
    scene.close_refused(id(1), 31);
    scene.lapse(id(1));
    scene.close(id(1));
    scene.table_is_empty();
}

/// List 5: A request repeated after its transaction was closed opens a new one,
/// which an old certConf cannot settle.
fn opening_after_closing<E: Ends>() {
    let (mut scene, request, cert_conf) = confirming::<E>(true);
    let pkiconf = scene.settles(&cert_conf, 1, TransactionState::Confirmed);
    scene.board_takes(1, &pkiconf, EnrolmentState::Sure);
    scene.close(id(1));
    scene.refuses(&cert_conf, good(1), 12, 2);
    scene.opens(&request, 1, 0);
    scene.refuses(&cert_conf, good(1), 14, 13);
    for nonce in [Some(vec![0; 16]), None] {
        let copy = changed(&cert_conf, |parts| parts.recip_nonce = nonce);
        scene.refuses(&copy, good(1), 14, 13); // outside
    }
    let second = scene.issue(id(1), hash(2));
    scene.refuses(&cert_conf, good(1), 14, 13);
    scene.board_refuses(1, &second, 14);
    scene.board_says(1, EnrolmentState::Sure);
    scene.registrar_says(id(1), TransactionState::Granted);
}

/// List 6: A forged message is reflected as a genuine error, which unsettles the
/// board.
fn reflected_error<E: Ends>() {
    let (mut scene, _, cert_conf) = confirming::<E>(true);
    let forged = changed(&cert_conf, |parts| parts.hash = vec![3; 32]);
    let error = scene.refuses(&forged, Verdict::Bad, 7, 1);
    scene.board_takes(1, &error, EnrolmentState::Unsettled);
    let pkiconf = scene.settles(&cert_conf, 1, TransactionState::Confirmed);
    scene.board_refuses(1, &pkiconf, 20);
}

/// List 7: The board has hashed another certificate than was issued.
fn another_certificate<E: Ends>() {
    let (mut scene, _, response) = granted::<E>();
    let cert_conf = scene.decide(0, &response, true, hash(2));
    let error = scene.refuses(&cert_conf, good(0), 19, 4);
    scene.registrar_says(id(1), TransactionState::Granted);
    scene.board_takes(0, &error, EnrolmentState::Unsettled);
    scene.refuses(&cert_conf, good(0), 19, 4);
    scene.lapse(id(1));
    scene.refuses(&cert_conf, good(0), 19, 4);
    scene.close(id(1));
    scene.table_is_empty();
}

/// List 8: A confirmation that comes after the host gave up waiting for it.
fn late_confirmation<E: Ends>() {
    let (mut scene, request, cert_conf) = confirming::<E>(true);
    scene.lapse(id(1));
    let error = scene.refuses(&cert_conf, good(1), 20, 2);
    scene.board_takes(1, &error, EnrolmentState::Unsettled);
    scene.close(id(1));
    scene.refuses(&cert_conf, good(1), 12, 2);
    scene.opens(&request, 1, 0);
    scene.refuses(&cert_conf, good(1), 14, 13);
}

/// List 9: Without its status info a rejection would be an acceptance.
fn stripped_rejection<E: Ends>() {
    let (mut scene, _, cert_conf) = confirming::<E>(false);
    let stripped = changed(&cert_conf, |parts| parts.status = None);
    scene.refuses(&stripped, Verdict::Bad, 7, 1);
    scene.registrar_says(id(1), TransactionState::Granted);
    let pkiconf = scene.settles(&cert_conf, 1, TransactionState::Declined);
    scene.refuses(&stripped, good(1), 20, 2); // outside
    scene.board_takes(1, &pkiconf, EnrolmentState::Declined);
}

/// List 10: A full table, and a slot that is used again.
fn full_table<E: Ends>() {
    let mut scene = Scene::<E>::new();
    let ids: Vec<TransactionId> = (0..=SLOTS as u8).map(id).collect();
    let requests: Vec<Parts> = ids.iter().map(|id| scene.start(*id)).collect();
    for (board, request) in requests[..SLOTS].iter().enumerate() {
        scene.opens(request, board, board);
    }
    // The board after those that have taken all slots.
    let (board, last) = (SLOTS, &requests[SLOTS]);
    let double = changed(last, |parts| parts.entries = 2);
    scene.refuses(&double, good(board), 11, 24);
    let error = scene.refuses(last, good(board), 11, 24);
    scene.board_takes(board, &error, EnrolmentState::Failed);
    let refusing = scene.refuse(id(3));
    scene.close(id(3));
    scene.opens(last, board, 3);
    let response = scene.issue(ids[board], hash(1));
    scene.board_refuses(board, &response, 20);
    scene.board_takes(3, &refusing, EnrolmentState::Failed);
    scene.registrar_says(ids[board], TransactionState::Granted);
}

/// After a time out at Asked nothing is taken any more.
fn time_out_at_asked<E: Ends>() {
    let (mut scene, request, response) = granted::<E>();
    let error = scene.refuses(&request, good(0), 10, 21);
    scene.time_out(0, EnrolmentState::Failed);
    scene.board_refuses(0, &response, 20);
    scene.board_refuses(0, &error, 20);
    scene.time_out_refused(0);
}

/// Either of two pkiconf settles the board, and the other comes too late.
fn second_pkiconf_first<E: Ends>() {
    let (mut scene, _, cert_conf) = confirming::<E>(true);
    let first = scene.settles(&cert_conf, 1, TransactionState::Confirmed);
    let second = scene.again(&cert_conf, 1);
    scene.board_takes(1, &second, EnrolmentState::Sure);
    scene.board_refuses(1, &first, 20);
}

/// A cp is no answer to an ir, even with the right id and nonce.
fn response_to_another_kind<E: Ends>() {
    let (mut scene, _, response) = granted::<E>();
    let other = changed(&response, |parts| parts.kind = 3);
    scene.board_refuses(0, &other, 8);
    scene.decide(0, &response, true, hash(1));
}

/// A refused transaction has no hash, so 32 zeros do not name it.
fn cert_conf_at_refused<E: Ends>() {
    let (mut scene, request) = asked::<E>();
    let refusing = scene.refuse(id(1));
    let cert_conf = changed(&request, |parts| {
        parts.kind = 24;
        parts.recip_nonce = refusing.sender_nonce.clone();
        parts.hash = vec![0; 32];
    });
    scene.refuses(&cert_conf, good(0), 19, 4);
    scene.registrar_says(id(1), TransactionState::Refused);
}

/// Ids, nonces and hashes of zeros are values like others.
fn zeros_everywhere<E: Ends>() {
    let (zero_id, zero_nonce) = (TransactionId::default(), FreshNonce([0; 16]));
    let mut scene = Scene::<E>::new();
    scene.close_refused(zero_id, 30);
    let request = scene.start_with(4, zero_id, zero_nonce);
    let cert_conf = changed(&request, |parts| {
        parts.kind = 24;
        parts.recip_nonce = Some(vec![0; 16]);
        parts.hash = vec![0; 32];
        parts.number = -1;
    });
    scene.refuses(&cert_conf, good(0), 12, 2);
    scene.opens(&request, 0, 0);
    scene.refuses(&request, good(0), 10, 21);
    scene.refuses(&cert_conf, good(0), 14, 13);
    let response = scene.issue_with(zero_id, zero_nonce, CertHash::default());
    let decision = Decision {
        accept: true,
        hash: CertHash::default(),
    };
    let genuine = scene.decide_with(0, &response, decision, zero_nonce);
    let pkiconf = scene.settles(&cert_conf, 0, TransactionState::Confirmed);
    scene.again(&genuine, 0);
    scene.board_takes(0, &pkiconf, EnrolmentState::Sure);
    scene.close(zero_id);
    scene.close_refused(zero_id, 30);
    scene.table_is_empty();
}

on_both!(
    neighbours_confirmation,
    lost_pkiconf,
    changed_copies,
    repeated_opening,
    opening_after_closing,
    reflected_error,
    another_certificate,
    late_confirmation,
    stripped_rejection,
    full_table,
    time_out_at_asked,
    second_pkiconf_first,
    response_to_another_kind,
    cert_conf_at_refused,
    zeros_everywhere,
);
