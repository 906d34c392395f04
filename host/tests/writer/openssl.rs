//! OpenSSL as a reader of what the library writes: every kind, accepted and
//! rejected, with as little and with as much in it as there is room for.
//! `openssl_live.rs` sends them to its CMP client and server.

use super::tally::Tally;
use duskstall_host::testing::der::parse;
use duskstall_host::testing::openssl::Folder;
use duskstall_host::testing::writing::{order, Call, Elements, KINDS};
use duskstall_host::Outgoing;

/// What `openssl asn1parse` finds: each element's offset, depth, and the lengths
/// of its head and of its content.
fn found(folder: &Folder, message: &[u8]) -> Vec<[usize; 4]> {
    folder.write("message.der", message);
    let output = folder.run("asn1parse -inform DER -in message.der");
    let text = String::from_utf8(output).expect("it prints text");
    text.lines().map(line).collect()
}

/// `   7:d=2  hl=2 l=   4 cons: cont [ 4 ]`.
fn line(line: &str) -> [usize; 4] {
    let mut numbers = line
        .split(|c: char| !c.is_ascii_digit())
        .filter_map(|digits| digits.parse().ok());
    std::array::from_fn(|_| numbers.next().expect("a line has four numbers"))
}

/// The same of our own tree.
fn expected(message: &[u8]) -> Vec<[usize; 4]> {
    fn walk(bytes: &[u8], at: usize, depth: usize, lines: &mut Vec<[usize; 4]>) {
        let mut at = at;
        for node in parse(bytes).expect("it is DER") {
            let (whole, content) = (node.encoded_len(), node.content_len());
            let head = whole - content;
            lines.push([at, depth, head, content]);
            let inside: Vec<u8> = node.children().iter().flat_map(|c| c.encode()).collect();
            walk(&inside, at + head, depth + 1, lines);
            at += whole;
        }
    }
    let mut lines = Vec::new();
    walk(message, 0, 0, &mut lines);
    lines
}

#[test]
fn openssl_parses_every_kind() {
    let Some(folder) = Folder::set_up("-reqin") else {
        println!("skipped: no openssl cmp here");
        return;
    };
    let elements = Elements::new();
    let mut tally = Tally::default();
    let rejected = KINDS.map(order).map(|outgoing| Outgoing {
        status: outgoing.status.map(|_| 2),
        failure: None,
        ..outgoing
    });
    for outgoing in KINDS.map(order).into_iter().chain(rejected) {
        for given in [elements.least(&outgoing), elements.all(&outgoing)] {
            let message = tally.written(&Call::new(&outgoing, &given));
            assert_eq!(found(&folder, &message), expected(&message), "{outgoing:?}");
        }
    }
    println!("openssl asn1parse: {:?}", tally.written);
}
