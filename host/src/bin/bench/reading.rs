//! Reading: both readers, with every field, and the check of elements alone.

use crate::measure::{line, medians, medians_of};
use duskstall_host::testing::chains::{chain_message, chain_run, even_message};
use duskstall_host::{compiled, independent, Reading, Refused};
use std::hint::black_box;

const KIB: usize = 1_024;

/// Bytes read in each batch, by as many calls as that takes.
const BATCH: usize = 400_000;

/// Messages that OpenSSL's client and mock server made: a certConf, an ir and
/// an ip with a chain of certificates.
const CORPUS: [&[u8]; 3] = [
    include_bytes!("../../../tests/corpus/sig-ir-req2.der"),
    include_bytes!("../../../tests/corpus/sig-ir-req1.der"),
    include_bytes!("../../../tests/corpus/sig-extra-rsp1.der"),
];

/// About the sizes of the messages whose cost is set against their length.
const LENGTHS: [usize; 5] = [KIB, 2 * KIB, 4 * KIB, 8 * KIB, 16 * KIB];

pub fn messages() {
    for size in [KIB + KIB / 2, 16 * KIB] {
        compare_reading("read", &chain_message(size));
    }
    for message in CORPUS {
        compare_reading("openssl", message);
    }
}

/// Runs of elements, which may be longer than a message.
pub fn runs() {
    for size in [16 * KIB, 40 * KIB] {
        let run = chain_run(size);
        assert_eq!(compiled::check_number(&run), 0);
        assert_eq!(independent::check_elements(&run), None);
        let mut proved = || {
            black_box(compiled::check_number(black_box(&run)));
        };
        let mut rust = || {
            black_box(rust_check(black_box(&run)));
        };
        let times = medians(BATCH / run.len(), [&mut proved, &mut rust]);
        print_both("check", run.len(), times);
    }
}

/// The cost of reading against the length, all lengths in the same rounds.
pub fn lengths() {
    let messages = LENGTHS.map(even_message);
    let mut calls: Vec<Box<dyn FnMut()>> = Vec::new();
    for message in &messages {
        check_same(message);
        calls.push(Box::new(proved_reading(message)));
        calls.push(Box::new(rust_reading(message)));
    }
    let batches = messages
        .iter()
        .flat_map(|message| [BATCH / message.len(); 2]);
    let timed = batches.zip(calls.iter_mut().map(|call| call as &mut dyn FnMut()));
    let times = medians_of(timed.collect());
    let [mut proved, mut rust] = [Vec::new(), Vec::new()];
    for (message, times) in messages.iter().zip(times.chunks(2)) {
        print_both("length", message.len(), [times[0], times[1]]);
        proved.push((message.len() as f64, times[0]));
        rust.push((message.len() as f64, times[1]));
    }
    print_line("proved", &proved);
    print_line("Rust", &rust);
}

fn print_line(name: &str, points: &[(f64, f64)]) {
    let per_byte = || points.iter().map(|(bytes, time)| time / bytes);
    let dearest = per_byte().fold(f64::MIN, f64::max);
    let cheapest = per_byte().fold(f64::MAX, f64::min);
    let (a, b, off) = line(points);
    println!(
        "length, {name}: dearest to cheapest per byte {:.2}; {a:.0} ns + {b:.3} ns/byte, off by at most {:.1} percent",
        dearest / cheapest,
        100.0 * off,
    );
}

/// Both readers on one message that both take.
fn compare_reading(name: &str, message: &[u8]) {
    check_same(message);
    let calls = BATCH / message.len();
    let times = medians(
        calls,
        [&mut proved_reading(message), &mut rust_reading(message)],
    );
    print_both(name, message.len(), times);
}

fn check_same(message: &[u8]) {
    assert_eq!(compiled::read(message), independent::read(message));
    assert!(independent::read(message).is_ok());
}

/// A call of the library, with all fields.
pub fn proved_reading(message: &[u8]) -> impl FnMut() + '_ {
    let mut fields = [0; compiled::FIELDS];
    move || {
        let fields = black_box(&mut fields);
        black_box(compiled::read_fields(black_box(message), fields));
    }
}

fn rust_reading(message: &[u8]) -> impl FnMut() + '_ {
    move || {
        let _ = black_box(rust_read(black_box(message)));
    }
}

/// Not inlined, as a call of the library cannot be.
#[inline(never)]
fn rust_read(message: &[u8]) -> Result<Reading, Refused> {
    independent::read(message)
}

#[inline(never)]
fn rust_check(run: &[u8]) -> Option<(usize, u8)> {
    independent::check_elements(run)
}

/// Both times, and their ratio.
pub fn print_both(name: &str, bytes: usize, [proved, rust]: [f64; 2]) {
    println!(
        "{name:7} {bytes:6} bytes: proved {proved:9.1} ns ({:.3}/byte), \
         Rust {rust:9.1} ns ({:.3}/byte), ratio {:.2}",
        proved / bytes as f64,
        rust / bytes as f64,
        proved / rust,
    );
}
