//! Both ends of the compiled library with a real peer: the registrar takes the
//! messages of OpenSSL's CMP client, and the end entity those of its mock
//! server. Once with messages that `openssl` makes here and now, where the
//! machine has it, and once with the stored corpus.

#[path = "openssl_peer/end_entity.rs"]
mod end_entity;
#[path = "openssl_peer/exchange.rs"]
mod exchange;
#[path = "openssl_peer/openssl.rs"]
mod openssl;
#[path = "openssl_peer/registrar.rs"]
mod registrar;

use duskstall_host::testing::corpus::corpus;
use duskstall_host::{EnrolmentState, TransactionState};
use exchange::Exchange;
use openssl::{OpenSsl, PROTECTIONS};
use std::collections::BTreeMap;

/// Runs a transaction with `openssl` for each protection. Its four messages
/// have these kinds.
fn with_openssl(kinds: [u8; 4], command: &str, check: impl Fn(&Exchange)) {
    let Some(openssl) = OpenSsl::set_up() else {
        println!("skipped: no openssl cmp here");
        return;
    };
    for protection in PROTECTIONS {
        let transaction = openssl.enrol(command, protection);
        let exchange = Exchange::read(transaction.requests, transaction.responses);
        let messages = exchange.enrolment();
        assert_eq!(messages.map(|message| message.reading.kind), kinds);
        // The certificate lies where the library says.
        let hash = messages[1].issued().map(|hash| hash.0.to_vec());
        assert_eq!(hash, Some(openssl.hash()));
        check(&exchange);
    }
    println!("openssl cmp {command}: a transaction that is signed, one under a password");
}

fn enrols(exchange: &Exchange) {
    registrar::confirms(exchange);
    end_entity::is_sure(exchange);
}

#[test]
fn openssl_ir_enrols() {
    with_openssl([0, 1, 24, 19], "-cmd ir", enrols);
}

#[test]
fn openssl_cr_enrols() {
    with_openssl([2, 3, 24, 19], "-cmd cr", enrols);
}

#[test]
fn openssl_kur_enrols() {
    with_openssl([7, 8, 24, 19], "-cmd kur -oldcert new.crt", enrols);
}

#[test]
fn openssl_p10cr_enrols() {
    with_openssl([4, 3, 24, 19], "-cmd p10cr -csr new.csr", enrols);
}

/// What the registrar says of the requests, 0 for done and else the refusal's
/// number, and where its transaction ends; and the same of the end entity with
/// the responses.
type Said<'a> = (
    &'a [u8],
    Option<TransactionState>,
    &'a [u8],
    Option<EnrolmentState>,
);

/// What both ends have to say of a transaction of the corpus, by its sort.
fn expected(sort: &str) -> Said<'static> {
    use {EnrolmentState as Board, TransactionState as Record};
    match sort {
        "ir" | "cr" | "kur" | "p10cr" | "extra" | "sans" | "hmac256" => {
            (&[0, 0], Some(Record::Confirmed), &[0, 0], Some(Board::Sure))
        }
        // Polling comes with M-103: until then status 3 and pollReq are refused,
        // and the later responses answer a nonce that the board never sent.
        "poll" => (
            &[0, 8, 0],
            Some(Record::Confirmed),
            &[18, 14, 14],
            Some(Board::Asked),
        ),
        // Nothing of ours grants implicitConfirm, so the certConf is awaited.
        "implicit" => (&[0], Some(Record::Granted), &[0], Some(Board::Confirming)),
        "error" | "refused" => (&[0], Some(Record::Refused), &[0], Some(Board::Failed)),
        "rr" | "genm" => (&[8], None, &[32], None),
        // Only the client's messages are unprotected.
        "unprotected" => (&[6, 6], None, &[0, 0], Some(Board::Sure)),
        _ => panic!("the corpus has no such transaction: {sort}"),
    }
}

/// The transactions of the corpus by their names.
fn stored() -> BTreeMap<String, Exchange> {
    let mut transactions: BTreeMap<String, [Vec<Vec<u8>>; 2]> = BTreeMap::new();
    for (name, bytes) in corpus() {
        let (transaction, step) = name.rsplit_once('-').expect("the name has two parts");
        let messages = transactions.entry(transaction.to_owned()).or_default();
        messages[usize::from(step.starts_with("rsp"))].push(bytes);
    }
    transactions
        .into_iter()
        .map(|(name, [requests, responses])| (name, Exchange::read(requests, responses)))
        .collect()
}

#[test]
fn stored_corpus_goes_through_both_ends() {
    let stored = stored();
    let mut counts: BTreeMap<String, usize> = BTreeMap::new();
    let mut messages = 0;
    for (name, exchange) in &stored {
        let sort = name.rsplit('-').next().unwrap_or_default();
        let (requests, record) = registrar::says(exchange);
        let (responses, board) = end_entity::says(exchange);
        let said: Said = (&requests, record, &responses, board);
        assert_eq!(said, expected(sort), "{name}");
        if (record, board)
            == (
                Some(TransactionState::Confirmed),
                Some(EnrolmentState::Sure),
            )
        {
            enrols(exchange);
        }
        messages += exchange.requests.len() + exchange.responses.len();
        let words = format!("registrar {requests:?} {record:?}, board {responses:?} {board:?}");
        *counts.entry(words).or_default() += 1;
    }
    println!("corpus: {} transactions, {messages} messages", stored.len());
    for (words, count) in counts {
        println!("  {count}: {words}");
    }
    assert_eq!((stored.len(), messages), (26, 88));
}
