//! The proved reader's time against the independent Rust reader's, on the same
//! messages in the same run; its cost against the message's length; the proved
//! writer's time against the independent writer's; and the time of steps of both
//! ends beside that of reading the message alone.

mod measure;
mod reading;
mod steps;
mod writing;

use duskstall_host::{ENROLMENT_BYTES, TABLE_BYTES};

fn main() {
    println!(
        "median of {} rounds, ns per call and per byte, proved / Rust",
        measure::ROUNDS
    );
    reading::messages();
    reading::runs();
    reading::lengths();
    writing::messages();
    println!("state: table {TABLE_BYTES} bytes, enrolment {ENROLMENT_BYTES} bytes");
    steps::at_registrar();
    steps::at_end_entity();
}
