//! Demand 3 on the compiled code: one registrar, as many boards as it has slots
//! and a line that loses, repeats, reorders, alters and invents messages and hands
//! them to the wrong end. After every call the five claims are checked.

#[path = "hostile_line/claims.rs"]
mod claims;
#[path = "hostile_line/coverage.rs"]
mod coverage;
#[path = "hostile_line/forge.rs"]
mod forge;
#[path = "hostile_line/history.rs"]
mod history;
#[path = "hostile_line/line.rs"]
mod line;
#[path = "hostile_line/world.rs"]
mod world;

use claims::Claims;
use coverage::Coverage;
use duskstall_host::testing::random::Random;
use duskstall_host::SLOTS;
use line::{Line, Verdicts};
use std::collections::BTreeSet;
use std::time::Instant;
use world::World;

/// Calls in one list, which starts with an empty table and no enrolment: enough
/// to fill the table.
const LIST: usize = 25 * SLOTS;

/// Runs lists of calls and checks the claims after each.
fn run(calls: usize, seed: u64, verdicts: Verdicts) -> (Claims, Coverage) {
    let started = Instant::now();
    let mut random = Random::new(seed);
    let mut claims = Claims::default();
    let mut coverage = Coverage::default();
    let lists = calls / LIST;
    for _ in 0..lists {
        let mut line = Line::draw(verdicts, &mut random);
        let mut world = World::new();
        for _ in 0..LIST {
            line.call(&mut world, &mut random, &mut coverage);
            claims.check(&world);
        }
        assert_eq!(world.history.calls, LIST);
    }
    println!(
        "{} calls in {lists} lists, {:.1?}",
        lists * LIST,
        started.elapsed()
    );
    claims.report();
    coverage.report();
    (claims, coverage)
}

#[test]
fn demand_3_on_a_hostile_line() {
    println!("verdicts as demand 3 supposes");
    let (claims, inside) = run(1_000_000, 0x3, Verdicts::Inside);
    println!("verdicts outside the premise");
    let (others, outside) = run(200_000, 0x4, Verdicts::Outside);

    assert_eq!(claims.broken, [0; 5]);
    assert!(claims.said.iter().all(|said| *said > 10_000));
    // The claims can fail: each does where the verdicts are not as supposed.
    assert!(others.broken.iter().all(|broken| *broken > 0));

    // Every row is met, and those that the premise shadows only outside it.
    let (whole, shadowed) = (coverage::whole(), coverage::outside());
    let reachable: BTreeSet<String> = whole.difference(&shadowed).cloned().collect();
    assert_eq!(inside.met(), reachable);
    assert!(outside.met().is_superset(&shadowed));
    assert!(outside.met().is_subset(&whole));
    println!("{} kinds of answers, all met", whole.len());

    // So is every move of a p10cr transaction and enrolment, and the certReqId of
    // each sort at the other.
    let moves: BTreeSet<String> = coverage::moves().difference(&shadowed).cloned().collect();
    assert_eq!(inside.moves_of_p10cr(), moves);
    for label in coverage::WRONG_NUMBERS {
        assert!(inside.refused_number(label) && outside.refused_number(label));
    }
}
