//! The line: what it does with the messages that were given to it.

use crate::world::{End, Packet};
use duskstall_host::testing::exchange::{Certificate, Parts};
use duskstall_host::testing::random::Random;
use std::collections::BTreeMap;

/// The words for what the line does.
pub const DELIVERS: &str = "delivers";
const LOSES: &str = "loses";
const REPEATS: &str = "repeats";
const REORDERS: &str = "reorders";
const ALTERS: &str = "alters";
const INVENTS: &str = "invents";
const MISDIRECTS: &str = "misdirects";
const TRICKS: [&str; 6] = [LOSES, REPEATS, REORDERS, ALTERS, INVENTS, MISDIRECTS];

const PKICONF: u8 = 19;
const CERT_CONF: u8 = 24;

/// What the line does next.
pub enum Act {
    Loses(Packet),
    /// By one of the other words.
    Hands(&'static str, Packet),
}

#[derive(Default)]
pub struct Line {
    /// Given to the line and not handed over yet.
    waiting: Vec<Packet>,
    /// Handed over.
    old: Vec<Packet>,
    counts: BTreeMap<&'static str, usize>,
}

impl Line {
    pub fn send(&mut self, packet: Packet) {
        self.waiting.push(packet);
    }

    pub fn is_empty(&self) -> bool {
        self.waiting.is_empty()
    }

    /// Half of the time the line just delivers. Nothing where there is nothing
    /// to do it with.
    pub fn next(&mut self, random: &mut Random) -> Option<Act> {
        let act = match random.below(12) {
            0 => Act::Loses(self.take(0)?),
            1 => Act::Hands(REPEATS, self.any_old(random)?.clone()),
            2 if self.waiting.len() > 1 => {
                let later = 1 + random.below(self.waiting.len() - 1);
                Act::Hands(REORDERS, self.take(later)?)
            }
            3 => Act::Hands(ALTERS, altered(self.any_waiting(random)?, random)),
            4 => Act::Hands(INVENTS, invented(self.any_old(random)?, random)),
            5 => Act::Hands(MISDIRECTS, misdirected(self.any_waiting(random)?, random)),
            _ => Act::Hands(DELIVERS, self.take(0)?),
        };
        let word = match &act {
            Act::Loses(_) => LOSES,
            Act::Hands(word, packet) => {
                self.old.push(packet.clone());
                word
            }
        };
        *self.counts.entry(word).or_default() += 1;
        Some(act)
    }

    fn take(&mut self, number: usize) -> Option<Packet> {
        (number < self.waiting.len()).then(|| self.waiting.remove(number))
    }

    fn any_waiting(&self, random: &mut Random) -> Option<&Packet> {
        self.waiting.get(random.below(self.waiting.len()))
    }

    fn any_old(&self, random: &mut Random) -> Option<&Packet> {
        self.old.get(random.below(self.old.len()))
    }

    /// Says how often the line did what.
    pub fn report(&self) {
        let counts: Vec<String> = [DELIVERS]
            .iter()
            .chain(&TRICKS)
            .map(|word| format!("{word} {}", self.counts.get(word).unwrap_or(&0)))
            .collect();
        println!("The line {}.", counts.join(", "));
    }
}

/// A bit turned over, or the end cut off.
fn altered(packet: &Packet, random: &mut Random) -> Packet {
    let mut packet = packet.clone();
    let place = random.below(packet.bytes.len());
    if random.once_in(3) {
        packet.bytes.truncate(place);
    } else {
        packet.bytes[place] ^= 1 << random.below(8);
    }
    packet
}

/// An answer to a message that the line has seen, with all in it that the
/// receiver looks for; only the key to protect it is missing.
fn invented(seen: &Packet, random: &mut Random) -> Packet {
    let (kind, status) = match seen.from {
        End::Registrar => (CERT_CONF, Some(0)),
        End::Board(_) => (PKICONF, None),
    };
    let parts = Parts {
        kind,
        sender_nonce: Some(random.bytes(16)),
        recip_nonce: Some(seen.outgoing.sender_nonce.0.to_vec()),
        status,
        hash: random.bytes(32),
        certificate: Certificate::Nothing,
        ..Parts::of(&seen.outgoing)
    };
    Packet {
        from: seen.to,
        to: seen.from,
        bytes: parts.encode(),
        outgoing: seen.outgoing,
    }
}

/// To another end than the one it is for.
fn misdirected(packet: &Packet, random: &mut Random) -> Packet {
    let ends = [End::Registrar, End::Board(0), End::Board(1), End::Board(2)];
    let others: Vec<End> = ends
        .into_iter()
        .filter(|end| *end != packet.to && *end != packet.from)
        .collect();
    Packet {
        to: *random.pick(&others),
        ..packet.clone()
    }
}
