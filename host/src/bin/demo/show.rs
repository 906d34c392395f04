//! What the demonstration prints.

use crate::world::{End, Packet, World};
use duskstall_host::testing::messages::KIND_NAMES;
use duskstall_host::{compiled, EnrolmentState, Outcome, Outgoing, Reading, Span};
use std::fmt::Debug;

pub fn introduction(seed: u64) {
    println!(
        "Three boards enrol over a line that loses, repeats, reorders, alters, invents and misdirects
messages (seed {seed}). For each message: what the line does with it, what the proved reader finds in
it (parts as start+length, ids and nonces by their first bytes), and what its receiver answers. In
refusals the book is the registrar's table, and an opening is a request (ir, cr, p10cr or kur).
"
    );
}

fn kind(kind: u8) -> &'static str {
    KIND_NAMES.get(usize::from(kind)).unwrap_or(&"?")
}

/// The first bytes of an id or a nonce.
fn short(bytes: &[u8]) -> String {
    bytes
        .iter()
        .take(2)
        .map(|byte| format!("{byte:02x}"))
        .collect()
}

/// A host's step that sends a message.
pub fn sends(from: End, what: &str, packet: &Packet) {
    let id = short(&packet.outgoing.id.0);
    let kind = kind(packet.outgoing.kind);
    println!("host        {from} {what}: {kind}, id {id}");
}

/// A host's step that moves a state.
pub fn host<S: Debug>(end: End, what: &str, outcome: Outcome, before: S, after: S) {
    println!(
        "host        {end} {what}: {}",
        ended(outcome, before, after)
    );
}

pub fn lost(packet: &Packet) {
    let kind = kind(packet.outgoing.kind);
    println!("loses       {} -> {}: {kind}", packet.from, packet.to);
}

/// A message that the line hands over, and what is read in it.
pub fn handed(how: &str, packet: &Packet) {
    let Packet {
        from, to, bytes, ..
    } = packet;
    let reading = match compiled::read(bytes) {
        Ok(reading) => parts(bytes, &reading),
        Err(_) => format!("{} bytes that do not read", bytes.len()),
    };
    println!("{how:<11} {from} -> {to}: {reading}");
}

fn parts(bytes: &[u8], reading: &Reading) -> String {
    let named = [
        ("header", reading.header),
        ("body", reading.body),
        ("protection", reading.protection),
        ("certificate", reading.certificate),
        ("certHash", reading.cert_hash),
    ];
    let places: Vec<String> = named
        .into_iter()
        .filter(|(_, part)| *part != Span::default())
        .map(|(name, part)| format!("{name} {}+{}", part.start, part.len))
        .collect();
    let content = |part: Span| short(&bytes[part.start..][..part.len]);
    let number = match reading.entries {
        1 => format!(" certReqId {}", reading.number as i32),
        _ => String::new(),
    };
    let status = match reading.has_status {
        true => format!(" status {}", reading.status as i32),
        false => String::new(),
    };
    format!(
        "{}{number}{status}, {} bytes, id {}, nonce {}, {}",
        kind(reading.kind),
        bytes.len(),
        content(reading.transaction_id),
        content(reading.sender_nonce),
        places.join(", ")
    )
}

fn ended<S: Debug>(outcome: Outcome, before: S, after: S) -> String {
    match outcome {
        Outcome::Done => format!("{before:?} -> {after:?}"),
        Outcome::Again => format!("again at {after:?}"),
        Outcome::Refused(refusal) => refusal.to_string(),
    }
}

/// An end's answer to a message.
pub fn answer<S: Debug>(
    end: End,
    outcome: Outcome,
    before: S,
    after: S,
    outgoing: Option<Outgoing>,
) {
    let sends = match outgoing {
        Some(outgoing) => format!("; sends {}", kind(outgoing.kind)),
        None => String::new(),
    };
    println!(
        "            {end}: {}{sends}",
        ended(outcome, before, after)
    );
}

/// The states of both ends.
pub fn states(world: &World) {
    println!("board  request  the board says  the registrar says  same hash");
    for board in &world.boards {
        let enrolment = board.end.enrolment();
        let found = world.registrar.find(enrolment.id).map(|(_, found)| found);
        let state = found.map_or("nothing".to_string(), |found| format!("{:?}", found.state));
        let same_hash = match enrolment.state {
            // It has none.
            EnrolmentState::Asked | EnrolmentState::Failed => "-",
            _ if found.is_some_and(|found| found.hash == enrolment.hash) => "yes",
            _ => "no",
        };
        println!(
            "{:<6} {:<8} {:<15} {state:<19} {same_hash}",
            board.number.0,
            kind(enrolment.kind),
            format!("{:?}", enrolment.state),
        );
    }
}
