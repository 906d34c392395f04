//! Instructions of a call: those of the proved reader and writer and of the independent ones in Rust, counted by valgrind's
//! callgrind, on messages that `bench` times too. The count of eleven calls less that of one, by ten, so that what comes before
//! the calls falls out.

use duskstall_host::testing::chains::{calls_to_write, chain_message, chain_run};
use duskstall_host::testing::writing::Call;
use duskstall_host::{compiled, independent, MESSAGE_LIMIT};
use std::hint::black_box;
use std::process::Command;

const CERT_CONF: &[u8] = include_bytes!("../../tests/corpus/sig-ir-req2.der");

/// What a call is about: a message that is read, a run of elements that is only checked, or a message that is written.
enum Input {
    Read(Vec<u8>),
    Check(Vec<u8>),
    Write(Box<Call>),
}

/// All of them by name.
fn inputs() -> Vec<(&'static str, Input)> {
    let mut inputs = vec![
        ("certConf", Input::Read(CERT_CONF.to_vec())),
        ("1.5K", Input::Read(chain_message(1_536))),
        ("16K", Input::Read(chain_message(16 * 1_024))),
        ("run", Input::Check(chain_run(40 * 1_024))),
    ];
    let names = ["write certConf", "write ir", "write ip", "write ip 16K"];
    let calls = calls_to_write().map(|(_, call)| Input::Write(Box::new(call)));
    inputs.extend(names.into_iter().zip(calls));
    inputs
}

fn input(name: &str) -> Option<Input> {
    let found = inputs().into_iter().find(|(known, _)| *known == name);
    found.map(|(_, input)| input)
}

/// Whether the library takes it.
#[inline(never)]
fn proved(input: &Input, buffer: &mut [u8]) -> bool {
    match input {
        Input::Read(bytes) => compiled::read_fields(bytes, &mut [0; compiled::FIELDS]) == 0,
        Input::Check(bytes) => compiled::check_number(bytes) == 0,
        Input::Write(call) => call.by_library(buffer) >> 32 == 0,
    }
}

#[inline(never)]
fn rust(input: &Input, buffer: &mut [u8]) -> bool {
    match input {
        Input::Read(bytes) => independent::read(bytes).is_ok(),
        Input::Check(bytes) => independent::check_elements(bytes).is_none(),
        Input::Write(call) => call.independently(buffer).is_ok(),
    }
}

/// So many calls of one: what callgrind counts.
fn call(whose: &str, name: &str, calls: &str) -> Option<()> {
    let input = input(name)?;
    let mut buffer = [0; MESSAGE_LIMIT];
    let call = if whose == "proved" { proved } else { rust };
    for _ in 0..calls.parse::<u32>().ok()? {
        assert!(black_box(call(black_box(&input), black_box(&mut buffer))));
    }
    Some(())
}

/// Instructions of the whole program with so many calls.
fn counted(whose: &str, name: &str, calls: &str) -> Option<u64> {
    let program = std::env::current_exe().ok()?;
    let output = Command::new("valgrind")
        .args(["--tool=callgrind", "--callgrind-out-file=/dev/null"])
        .arg(program)
        .args([whose, name, calls])
        .output()
        .ok()?;
    let said = String::from_utf8(output.stderr).ok()?;
    let (_, count) = said.split_once("Collected : ")?;
    count.split_whitespace().next()?.parse().ok()
}

fn per_call(whose: &str, name: &str) -> Option<u64> {
    Some((counted(whose, name, "11")? - counted(whose, name, "1")?) / 10)
}

/// What is done, and with how many bytes.
fn described(input: &Input) -> (&'static str, usize) {
    match input {
        Input::Read(bytes) => ("read", bytes.len()),
        Input::Check(bytes) => ("check", bytes.len()),
        Input::Write(call) => ("write", call.size_and_misfit().0),
    }
}

fn main() {
    let words: Vec<String> = std::env::args().skip(1).collect();
    if let [whose, name, calls] = &words[..] {
        call(whose, name, calls).expect("whose, input and number of calls");
        return;
    }
    for (name, input) in inputs() {
        let (what, bytes) = described(&input);
        let [proved, rust] = ["proved", "rust"].map(|whose| {
            per_call(whose, name).expect("valgrind counts (Debian's package valgrind)")
        });
        let ratio = proved as f64 / rust as f64;
        println!(
            "{what} {bytes:6} bytes: proved {proved:7} instructions, Rust {rust:7}, ratio {ratio:.2}"
        );
    }
}
