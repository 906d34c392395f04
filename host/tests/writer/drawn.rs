//! Orders and parts drawn at random.

use super::back::reads_back;
use super::protected::first_is_protected_part;
use super::random_calls::{draw, room};
use super::source::Source;
use super::tally::Tally;
use duskstall_host::independent::writer::{Field, Misfit, Part, Why, PARTS};
use duskstall_host::testing::random::Random;
use duskstall_host::testing::writing::KINDS;
use duskstall_host::MESSAGE_LIMIT;
use std::collections::BTreeSet;
use std::time::Instant;

const CALLS: usize = 2_000_000;

/// Calls with one source before another is drawn.
const WITH_ONE: usize = 100;

#[test]
fn two_million_random_calls() {
    let started = Instant::now();
    let mut tally = Tally::default();
    let mut random = Random::new(0x9101);
    let mut protected = 0;
    for _ in 0..CALLS / WITH_ONE {
        let source = Source::new(&mut random);
        for _ in 0..WITH_ONE {
            let call = draw(&source, &mut random);
            let room = room(&call, &mut random);
            let Ok(message) = tally.compare(&call, room) else {
                continue;
            };
            reads_back(&call, &message);
            if call.part(Part::Protection).is_some() && random.once_in(8) {
                protected += 1;
                first_is_protected_part(&call, message);
            }
        }
    }
    tally.report("random orders and parts");
    println!("  written without protection, too: {protected}");
    println!("  {:.1?}", started.elapsed());
    nothing_is_missing(&tally);
    assert!(protected > 10_000);
}

/// Every kind was written, every reason met, and the lowest number given where
/// more than one applies.
fn nothing_is_missing(tally: &Tally) {
    for kind in KINDS {
        assert!(tally.written[&kind] > 10_000, "{kind}");
    }
    assert_eq!(tally.written.len(), KINDS.len());
    assert_eq!(tally.longest, MESSAGE_LIMIT);
    let (over, short) = (&tally.over_limit, &tally.too_short);
    for count in [over.all, over.by_35, over.by_36, short.all, short.by_36] {
        assert!(count > 1_000, "{over:?} {short:?}");
    }
    let met: BTreeSet<Misfit> = tally.misfits.keys().copied().collect();
    assert_eq!(met, reasons());
}

/// Every reason for 36.
fn reasons() -> BTreeSet<Misfit> {
    let order = [
        (Field::RecipNonce, Why::NotZero),
        (Field::Status, Why::Missing),
        (Field::Status, Why::Unwanted),
        (Field::Status, Why::NotZero),
        (Field::Number, Why::Missing),
        (Field::Number, Why::Unwanted),
        (Field::Number, Why::NotZero),
        (Field::Hash, Why::NotZero),
        (Field::Failure, Why::Unwanted),
    ];
    let order = order.map(|(field, why)| Misfit::Order(field, why));
    let given = PARTS.into_iter().flat_map(|part| {
        let whys = [Why::AtStart, Why::Outside].iter().chain(reasons_of(part));
        whys.map(move |why| Misfit::Given(part, *why))
    });
    [Misfit::Kind]
        .into_iter()
        .chain(order)
        .chain(given)
        .collect()
}

/// Beside its place.
fn reasons_of(part: Part) -> &'static [Why] {
    // Every rule of an element, its tag, length, form or depth, content and
    // grammar; a part of no bytes breaks the last.
    const RULES: [Why; 7] = [
        Why::Rule(1),
        Why::Rule(2),
        Why::Rule(3),
        Why::Rule(4),
        Why::Rule(5),
        Why::Missing,
        Why::Unwanted,
    ];
    match part {
        Part::Sender | Part::Recipient => &RULES[..6],
        Part::ProtectionAlg | Part::FreeText | Part::GeneralInfo => &RULES[..5],
        Part::Request | Part::Certificate => &RULES,
        Part::Protection => &RULES[3..4],
        Part::MessageTime | Part::SenderKid | Part::RecipKid => &[],
    }
}
