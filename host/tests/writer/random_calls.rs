//! Calls drawn at random: an order and parts that fit, and then perhaps something
//! that does not.

use super::source::Source;
use duskstall_host::independent::writer::{Part, PARTS};
use duskstall_host::testing::random::Random;
use duskstall_host::testing::writing::{order, Call, KINDS};
use duskstall_host::{CertHash, Nonce, Outgoing, TransactionId, MESSAGE_LIMIT};

/// What the caller may leave out.
fn optional() -> &'static [Part] {
    &PARTS[Part::MessageTime as usize..=Part::Protection as usize]
}

pub fn draw(source: &Source, random: &mut Random) -> Call {
    let outgoing = sound_order(random);
    let mut call = Call {
        outgoing: outgoing.to_bytes(),
        version: some_number(random) as u32,
        given: [0; 2 * PARTS.len()],
        source: source.bytes.clone(),
    };
    add_parts(&mut call, &outgoing, source, random);
    if random.once_in(2) {
        for _ in 0..1 + random.below(2) {
            spoil(&mut call, source, random);
        }
    }
    if source.is_long() && random.once_in(2) {
        lengthen(&mut call, random);
    }
    call
}

fn sound_order(random: &mut Random) -> Outgoing {
    let kind = *random.pick(&KINDS);
    let drawn = order(kind);
    // Of the statuses 0 is the one that matters.
    let status = match random.below(3) {
        0 => some_number(random) as u32,
        _ => 0,
    };
    Outgoing {
        kind,
        id: TransactionId(sixteen(random)),
        sender_nonce: Nonce(sixteen(random)),
        recip_nonce: (!random.once_in(3)).then(|| Nonce(sixteen(random))),
        status: drawn.status.map(|_| status),
        hash: drawn.hash.map(|_| hash(random)),
        failure: drawn.failure.and_then(|_| failure(random)),
        number: drawn.number.map(|_| some_number(random)),
    }
}

fn sixteen(random: &mut Random) -> [u8; 16] {
    let [high, low] = [random.draw(), random.draw()];
    (u128::from(high) << 64 | u128::from(low)).to_be_bytes()
}

fn hash(random: &mut Random) -> CertHash {
    let halves = [sixteen(random), sixteen(random)];
    CertHash(halves.concat().try_into().expect("two halves"))
}

/// None, or a bit, of which PKIFailureInfo names the first 27.
fn failure(random: &mut Random) -> Option<u8> {
    match random.below(4) {
        0 => None,
        1 => Some(random.below(255) as u8),
        _ => Some(random.below(27) as u8),
    }
}

/// Of any length, mostly near a power of two or 0.
fn some_number(random: &mut Random) -> i32 {
    let power = 1i32.wrapping_shl(random.below(32) as u32);
    match random.below(4) {
        0 => random.draw() as i32,
        1 => power.wrapping_sub(random.below(3) as i32),
        2 => power
            .wrapping_neg()
            .wrapping_add(random.below(3) as i32 - 1),
        _ => random.below(4) as i32 - 1,
    }
}

/// What the order needs, and some of what it may have.
fn add_parts(call: &mut Call, outgoing: &Outgoing, source: &Source, random: &mut Random) {
    let mut add = |part: Part, random: &mut Random| {
        call.set(part, *random.pick(&source.fitting[part as usize]));
    };
    add(Part::Sender, random);
    add(Part::Recipient, random);
    for &part in optional() {
        if random.once_in(2) {
            add(part, random);
        }
    }
    match outgoing.kind {
        0 | 2 | 4 | 7 => add(Part::Request, random),
        1 | 3 | 8 if outgoing.status == Some(0) => add(Part::Certificate, random),
        _ => {}
    }
    if outgoing.kind == 4 && random.once_in(2) {
        call.set(Part::Request, *random.pick(&source.generic));
    }
}

/// Changes something, mostly so that it does not fit any more.
fn spoil(call: &mut Call, source: &Source, random: &mut Random) {
    let part = *random.pick(&PARTS);
    match random.below(12) {
        0 => spoil_order(call, random),
        1 | 2 => spoil_place(call, part, random),
        3 => call.set(part, [0, 0]),
        4 => call.set(part, *random.pick(&source.fitting[part as usize])),
        5 => call.set(Part::Request, source.generic[1]),
        _ => call.set(part, *random.pick(&source.others[part as usize])),
    }
}

/// Kind, flags, failure, and values that are unset or not.
fn spoil_order(call: &mut Call, random: &mut Random) {
    let bytes = &mut call.outgoing;
    match random.below(8) {
        0 => bytes[0] = random.byte(),
        1 => bytes[0] = *random.pick(&KINDS),
        2 => bytes[*random.pick(&[33, 50, 88])] ^= 1,
        3 => bytes[*random.pick(&[33, 50, 88])] = random.byte(),
        4 => bytes[87] = random.byte(),
        5 => bytes[50..55].fill(0),
        6 => bytes[88..].fill(0),
        _ => bytes[*random.pick(&[34, 49, 51, 54, 55, 86, 89, 92])] = random.byte(),
    }
}

/// A part at the source's start, of no bytes, or partly or wholly outside.
fn spoil_place(call: &mut Call, part: Part, random: &mut Random) {
    let [start, len] = part.span(&call.given);
    let end = call.source.len() as u64;
    let few = random.below(4) as u64;
    let span = match random.below(9) {
        0 => [0, 1 + len],
        1 => [0, end + few],
        2 => [start.max(1), end - start.max(1) + 1 + few],
        3 => [end - end.min(few), 1 + few],
        4 => [end + few, few],
        5 => [random.draw(), random.draw()],
        6 => [start.max(1), u64::MAX - few],
        7 => [u64::MAX - few, 1 + few],
        _ => [start.max(1), 0],
    };
    call.set(part, span);
}

/// Makes a content long, so that the message is about as long as one may be.
fn lengthen(call: &mut Call, random: &mut Random) {
    let part = *random.pick(&[Part::MessageTime, Part::SenderKid, Part::RecipKid]);
    call.set(part, [1, 0]);
    let (size, _) = call.size_and_misfit();
    // The lengths around it grow by some bytes themselves.
    let len = (MESSAGE_LIMIT + 4).saturating_sub(size + random.below(24));
    call.set(part, [1, len as u64]);
    if random.once_in(16) {
        let other = *random.pick(&[Part::SenderKid, Part::Protection, Part::Certificate]);
        call.set(other, [1, call.source.len() as u64 - 1]);
    }
}

/// How long the lent buffer is: too short, just right, or longer.
pub fn room(call: &Call, random: &mut Random) -> usize {
    let size = call.size_and_misfit().0.min(MESSAGE_LIMIT + 600);
    match random.below(8) {
        0 => size.saturating_sub(1),
        1 => random.below(size),
        2 | 3 => size,
        4 => size + random.below(300),
        _ => size + random.below(20),
    }
}
