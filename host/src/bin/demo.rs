//! Three boards enrol over a hostile line, printed step by step: each message
//! with what the proved reader finds in it, each answer with its refusal in
//! words, and at the end the states of both ends and the claims of demand 3.
//!
//! `demo [SEED]`: the seed decides what the line does. Ends with 1 if a claim
//! does not hold.

#[path = "demo/claims.rs"]
mod claims;
#[path = "demo/line.rs"]
mod line;
#[path = "demo/show.rs"]
mod show;
#[path = "demo/world.rs"]
mod world;

use line::{Act, Line};
use std::env;
use std::process::ExitCode;
use world::World;

/// It shows every trick of the line and three different ends, that of the p10cr
/// being Sure.
const SEED: u64 = 24;

fn main() -> ExitCode {
    let seed = match env::args().nth(1).map(|seed| seed.parse()) {
        None => SEED,
        Some(Ok(seed)) => seed,
        Some(Err(_)) => {
            eprintln!("usage: demo [SEED], a number");
            return ExitCode::FAILURE;
        }
    };
    show::introduction(seed);

    let mut world = World::new(seed);
    let mut line = Line::default();
    world.start_all(&mut line);
    while world.is_busy(&line) {
        match line.next(&mut world.random) {
            Some(Act::Loses(packet)) => show::lost(&packet),
            Some(Act::Hands(how, packet)) => world.hand_over(how, packet, &mut line),
            None => {}
        }
        world.hosts_act(&mut line);
    }
    world.finish();

    println!();
    show::states(&world);
    println!();
    line.report();
    match world.claims.report(world.calls) {
        true => ExitCode::SUCCESS,
        false => ExitCode::FAILURE,
    }
}
