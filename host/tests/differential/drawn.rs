//! Messages drawn at random, whole and damaged.

use super::tally::Tally;
use duskstall_host::testing::der::Node;
use duskstall_host::testing::random::{self, Random};
use duskstall_host::MESSAGE_LIMIT;
use std::time::Instant;

#[test]
fn two_million_random_messages() {
    const MESSAGES: usize = 2_000_000;
    let started = Instant::now();
    let mut tally = Tally::default();
    let mut random = Random::new(0x9810);
    let mut whole = 0;
    for _ in 0..MESSAGES {
        let mut message = random::message(&mut random);
        if random.once_in(2) {
            let bytes = message.encode();
            let answer = tally.message(&bytes);
            assert_eq!(answer.is_ok(), bytes.len() <= MESSAGE_LIMIT);
            whole += 1;
            continue;
        }
        let bytes = damaged(&mut message, &mut random);
        let _ = tally.message(&bytes);
        tally.run(&bytes[random.below(bytes.len() + 1)..]);
    }
    tally.report("random messages");
    println!(
        "  whole {whole}, damaged {}, {:.1?}",
        MESSAGES - whole,
        started.elapsed()
    );
    assert!(tally.accepted() > MESSAGES / 3 && tally.refused() > MESSAGES / 3);
    assert!(tally.accepted.iter().all(|count| *count > 1_000));
    assert!(tally.refused_by_rule[1..]
        .iter()
        .all(|count| *count > 1_000));
    assert!(tally.refused_by_size > 0);
}

/// A message's bytes after one to three damages, to its elements or its bytes.
fn damaged(message: &mut Node, random: &mut Random) -> Vec<u8> {
    let to_elements = random.below(3);
    for _ in 0..to_elements {
        random::damage_elements(message, random);
    }
    let mut bytes = message.encode();
    if to_elements == 0 || random.once_in(4) {
        random::damage_bytes(&mut bytes, random);
    }
    bytes
}
