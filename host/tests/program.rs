//! The program `inspect`, run on message after message: what it prints is what the independent reader finds, in the lines
//! of "One message byte for byte". `make program` builds it.

use duskstall_host::independent;
use duskstall_host::testing::corpus::corpus;
use duskstall_host::testing::messages::{bare, body};
use duskstall_host::testing::papers::sample;
use duskstall_host::{Span, MESSAGE_LIMIT};
use std::fs::File;
use std::io::Write;
use std::path::Path;
use std::process::{Child, Command, Stdio};

/// The program, begun with this input and output.
fn begun(input: impl Into<Stdio>, output: impl Into<Stdio>) -> Child {
    let program = Path::new(env!("CARGO_MANIFEST_DIR")).join("../target/bin/inspect");
    Command::new(program)
        .stdin(input)
        .stdout(output)
        .stderr(Stdio::piped())
        .spawn()
        .expect("the program is there, by `make program`")
}

/// What it printed, and what it said on standard error.
fn ended(child: Child) -> (String, String) {
    let output = child.wait_with_output().expect("it ends");
    assert!(output.status.success(), "it ends well");
    let text = |bytes| String::from_utf8(bytes).expect("text");
    (text(output.stdout), text(output.stderr))
}

/// What the program prints of these bytes.
fn printed(message: &[u8]) -> String {
    let mut child = begun(Stdio::piped(), Stdio::piped());
    let mut input = child.stdin.take().expect("its standard input");
    // It stops reading one byte after the limit, so that the pipe may close early.
    let _ = input.write_all(message);
    drop(input);
    let (lines, errors) = ended(child);
    assert_eq!(errors, "", "nothing failed");
    lines
}

/// The lines that 01 gives for a message, by the independent reader.
fn expected(message: &[u8]) -> String {
    let reading = match independent::read(message) {
        Ok(reading) => reading,
        Err(refused) => return format!("refused {}\n", refused.number),
    };
    let line = |word: &str, span: Span| format!("{word} {} {}\n", span.start, span.len);
    let mut lines = format!("kind {}\n", reading.kind);
    lines += &line("header", reading.header);
    lines += &line("body", reading.body);
    lines += &line("protection", reading.protection);
    if reading.kind == 24 && reading.entries == 1 {
        lines += &line("hash", reading.cert_hash);
    }
    lines
}

fn same(message: &[u8]) -> String {
    let lines = printed(message);
    assert_eq!(lines, expected(message), "of {message:02X?}");
    lines
}

#[test]
fn program_at_the_limits() {
    assert_eq!(same(&[]), "refused 1\n");
    assert_eq!(same(&[0x30]), "refused 2\n");
    assert_eq!(same(&[0; MESSAGE_LIMIT]), "refused 2\n");
    assert_eq!(same(&[0; MESSAGE_LIMIT + 1]), "refused 1\n");
    assert_eq!(same(&[0; 100_000]), "refused 1\n");
    let sample = sample();
    for end in 1..sample.len() {
        assert_eq!(
            same(&sample[..end]),
            "refused 2\n",
            "the first {end} bytes of W"
        );
    }
}

#[test]
fn program_prints_a_hash_for_one_entry_only() {
    let hashes = |message: &[u8]| same(message).matches("hash").count();
    assert_eq!(hashes(&sample()), 1);
    for kind in 0..=26 {
        for entries in 0..=2 {
            let one = usize::from(kind == 24 && entries == 1);
            assert_eq!(hashes(&bare(body(kind, entries, true)).encode()), one);
        }
    }
}

#[test]
fn program_without_protection() {
    assert!(same(&bare(body(19, 0, false)).encode()).contains("\nprotection 0 0\n"));
}

#[test]
fn program_whose_input_cannot_be_read() {
    let directory = File::open("/").expect("a directory, of which no read gives bytes");
    let (lines, errors) = ended(begun(directory, Stdio::piped()));
    assert_eq!(lines, "");
    assert_eq!(errors, "inspect: cannot read standard input\n");
}

#[test]
fn program_whose_input_comes_in_two_reads() {
    let sample = sample();
    for end in [1, 70, sample.len() - 1] {
        let mut child = begun(Stdio::piped(), Stdio::piped());
        let mut input = child.stdin.take().expect("its standard input");
        input.write_all(&sample[..end]).expect("it reads");
        std::thread::sleep(std::time::Duration::from_millis(50));
        input.write_all(&sample[end..]).expect("it still reads");
        drop(input);
        assert_eq!(ended(child), (expected(&sample), String::new()));
    }
}

#[test]
fn program_whose_output_cannot_be_written() {
    let device = |path| File::options().write(true).open(path);
    let Ok(full) = device("/dev/full") else {
        println!("skipped: there is no /dev/full");
        return;
    };
    let mut child = begun(Stdio::piped(), full);
    let mut input = child.stdin.take().expect("its standard input");
    input.write_all(&sample()).expect("it reads");
    drop(input);
    let (_, errors) = ended(child);
    assert_eq!(errors, "inspect: cannot write standard output\n");
}

#[test]
fn program_on_the_stored_corpus() {
    let messages = corpus();
    let read = messages
        .iter()
        .filter(|(_, message)| same(message).starts_with("kind "))
        .count();
    println!(
        "stored messages: {}, read by the program {read}",
        messages.len()
    );
    assert!(read == messages.len() && read > 50);
}
