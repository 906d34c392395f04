//! The messages that OpenSSL made, written anew from what is read in them: they
//! come out as OpenSSL wrote them.

use super::tally::Tally;
use duskstall_host::testing::corpus::corpus;
use duskstall_host::testing::received::Received;
use duskstall_host::testing::writing::{Call, KINDS};
use duskstall_host::{Reading, Span};

/// Whether OpenSSL put more into the body than is written here: caPubs, the
/// status 0 of a certConf, or words and bits in a rejection.
fn says_more(reading: &Reading) -> bool {
    let rejects = reading.has_status && reading.status == 2;
    let accepts = reading.kind == 24 && reading.has_status;
    reading.ca_pubs.start > 0 || accepts || rejects
}

type Part = fn(&Reading) -> Span;

#[test]
fn openssl_messages_written_anew() {
    let mut tally = Tally::default();
    let mut same_bodies = 0;
    for (name, bytes) in corpus() {
        let theirs = Received::read(bytes);
        if !KINDS.contains(&theirs.reading.kind) {
            continue;
        }
        let call = Call::new(&theirs.as_outgoing(), &theirs.as_given());
        let ours = Received::read(tally.written(&call));
        let same =
            |part: Part| ours.part(part(&ours.reading)) == theirs.part(part(&theirs.reading));
        assert!(same(|reading| reading.header), "{name}");
        assert!(same(|reading| reading.protection), "{name}");
        let same_body = same(|reading| reading.body);
        assert_eq!(same_body, !says_more(&theirs.reading), "{name}");
        same_bodies += usize::from(same_body);
    }
    let all: usize = tally.written.values().sum();
    println!("openssl's messages written anew: {all}, with the same body {same_bodies}");
    assert_eq!(tally.written.len(), KINDS.len());
    assert!(all > 70 && same_bodies > 50);
}
