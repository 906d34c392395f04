//! Messages of another implementation.

use super::tally::Tally;
use duskstall_host::testing::corpus::corpus;

/// The body kind of a message of the corpus by its name: the protection, the
/// sort of exchange and the message's number in it.
fn kind_by_name(name: &str) -> u8 {
    let mut words = name.rsplit('-');
    let step = words.next().unwrap_or_default();
    let exchange = words.next().unwrap_or_default();
    match (exchange, step) {
        ("cr" | "sans", "req1") => 2,
        ("cr" | "sans", "rsp1") => 3,
        ("kur", "req1") => 7,
        ("kur", "rsp1") => 8,
        ("p10cr", "req1") => 4,
        ("p10cr", "rsp1") => 3,
        ("rr", "req1") => 11,
        ("rr", "rsp1") => 12,
        ("genm", "req1") => 21,
        ("genm", "rsp1") => 22,
        ("error", "rsp1") => 23,
        // Polled once: the answer to pollReq is the certificate's ip.
        ("poll", "req2") => 25,
        ("poll", "rsp2") => 1,
        (_, "req1") => 0,
        (_, "rsp1") => 1,
        (_, "req2" | "req3") => 24,
        _ => 19,
    }
}

#[test]
fn corpus_reads_clean() {
    let mut tally = Tally::default();
    let messages = corpus();
    assert_eq!(messages.len(), 88);
    for (name, bytes) in &messages {
        assert_eq!(tally.clean(bytes).kind, kind_by_name(name), "{name}");
    }
    tally.report("corpus");
}

#[test]
fn corpus_cut_and_flipped() {
    let mut tally = Tally::default();
    for (_, mut bytes) in corpus() {
        for at in 0..bytes.len() {
            let _ = tally.message(&bytes[..at]);
            for bit in 0..8 {
                bytes[at] ^= 1 << bit;
                let _ = tally.message(&bytes);
                bytes[at] ^= 1 << bit;
            }
        }
    }
    tally.report("corpus cut and flipped");
}
