//! The line and the hosts: which call comes next. The line loses, repeats,
//! reorders, alters and invents messages and hands them to any end.

use super::coverage::Coverage;
use super::forge::{alter, any_number, damage, hash, invent};
use super::history::Sender;
use super::world::World;
use duskstall_host::testing::exchange::Parts;
use duskstall_host::testing::random::Random;
use duskstall_host::testing::writing::written_in;
use duskstall_host::{Board, Decision, TransactionId, TransactionState, Verdict, SLOTS};

/// How many boards there are.
const BOARDS: usize = SLOTS;

/// How many enrolments a list has at most: more than the table has room for.
const ENROLMENTS: usize = 5 * SLOTS / 2;

/// Whether verdicts are as demand 3 supposes, or mostly good whatever came.
#[derive(Clone, Copy, PartialEq, Eq)]
pub enum Verdicts {
    Inside,
    Outside,
}

/// The line and the hosts of one list, and how likely things are in it.
pub struct Line {
    verdicts: Verdicts,
    /// What was sent and not handed over yet, by its number in the history.
    waiting: Vec<usize>,
    /// How much of the history was looked at.
    seen: usize,
    /// Of 32 calls, those that start enrolments, and those that close.
    starts: usize,
    closes: usize,
    /// One of so many messages is lost, old, invented, altered, misdirected.
    lost: usize,
    old: usize,
    invented: usize,
    altered: usize,
    misdirected: usize,
}

impl Line {
    pub fn draw(verdicts: Verdicts, random: &mut Random) -> Line {
        let mut one_of = || *random.pick(&[2, 4, 8, 16, 64]);
        Line {
            verdicts,
            waiting: Vec::new(),
            seen: 0,
            lost: one_of(),
            old: one_of(),
            invented: one_of(),
            altered: one_of(),
            misdirected: one_of(),
            starts: 1 + random.below(5),
            closes: random.below(4),
        }
    }

    /// Makes the next call.
    pub fn call(&mut self, world: &mut World, random: &mut Random, coverage: &mut Coverage) {
        let next = random.below(32);
        if world.enrolments.is_empty()
            || (next < self.starts && world.enrolments.len() < ENROLMENTS)
        {
            let kind = *random.pick(&[0, 0, 2, 4, 4, 7, 1, 24]);
            let board = Board(random.below(BOARDS) as u16);
            return world.start(board, kind, coverage);
        }
        if next < self.starts + self.closes {
            let over = [
                TransactionState::Confirmed,
                TransactionState::Declined,
                TransactionState::Refused,
                TransactionState::Lapsed,
            ];
            return world.close(pick_id(world, &over, random), coverage);
        }
        let asked = pick_id(world, &[TransactionState::Asked], random);
        let granted = pick_id(world, &[TransactionState::Granted], random);
        match next {
            26..=28 => world.issue(asked, hash(random), coverage),
            29 if random.once_in(2) => world.refuse(asked, coverage),
            30 if random.once_in(3) => world.lapse(granted, coverage),
            31 if random.once_in(3) => {
                let number = random.below(world.enrolments.len());
                world.time_out(number, coverage);
            }
            _ => self.message(world, random, coverage),
        }
    }

    /// Hands a message to an end.
    fn message(&mut self, world: &mut World, random: &mut Random, coverage: &mut Coverage) {
        let (mut parts, mut written) = if random.once_in(self.invented) {
            (invent(world, random), None)
        } else {
            self.sent(world, random)
        };
        if random.once_in(self.altered) {
            alter(&mut parts, world, random);
            written = None;
        }
        let message = match random.below(64) {
            0 => damage(&parts, random),
            _ => written.unwrap_or_else(|| parts.encode()),
        };
        let to_registrar = matches!(parts.kind, 0 | 2 | 4 | 7 | 24);
        if to_registrar != random.once_in(self.misdirected) {
            let verdict = self.at_registrar(world, &parts, &message, random);
            return world.registrar_gets(&message, verdict, coverage);
        }
        let number = match self.receiver(world, &parts) {
            Some(number) if !random.once_in(self.misdirected) => number,
            _ => random.below(world.enrolments.len()),
        };
        let good = self.at_end_entity(world, &message, random);
        let decision = decide(world, number, random);
        world.end_entity_gets(number, &message, good, decision, coverage);
    }

    /// A message that was sent, by its parts and as the library writes it: one of
    /// the next that wait, or any old one.
    fn sent(&mut self, world: &World, random: &mut Random) -> (Parts, Option<Vec<u8>>) {
        let sent = &world.history.sent;
        self.waiting.extend(self.seen..sent.len());
        self.seen = sent.len();
        while !self.waiting.is_empty() && random.once_in(self.lost) {
            self.waiting.remove(0);
        }
        let number = if self.waiting.is_empty() || random.once_in(self.old) {
            random.below(sent.len())
        } else {
            let next = random.below(self.waiting.len().min(4));
            self.waiting.remove(next)
        };
        let outgoing = &sent[number].outgoing;
        let version = 2 + random.below(2) as i32;
        let parts = Parts {
            version: version.into(),
            ..Parts::of(outgoing)
        };
        (parts, Some(written_in(version, outgoing)))
    }

    /// The enrolment with the message's id.
    fn receiver(&self, world: &World, parts: &Parts) -> Option<usize> {
        let id = parts.id.as_deref()?;
        world
            .enrolments
            .iter()
            .position(|enrolled| enrolled.end.enrolment().id.0 == id)
    }

    /// Inside the premise a verdict is good only for a board that issued the
    /// message, and may be anything where the message does not read.
    fn at_registrar(
        &self,
        world: &World,
        parts: &Parts,
        message: &[u8],
        random: &mut Random,
    ) -> Verdict {
        if random.once_in(16) {
            return Verdict::Bad;
        }
        let any = Board(random.below(BOARDS) as u16);
        let named = self
            .receiver(world, parts)
            .filter(|_| !random.once_in(8))
            .map_or(any, |number| world.enrolments[number].board);
        match (self.verdicts, world.history.issuer(message)) {
            (Verdicts::Outside, _) | (_, None) => Verdict::Good(named),
            (_, Some(Some(Sender::Board(board)))) => Verdict::Good(board),
            _ => Verdict::Bad,
        }
    }

    /// The same at a board, where a good verdict names the registrar.
    fn at_end_entity(&self, world: &World, message: &[u8], random: &mut Random) -> bool {
        if random.once_in(16) {
            return false;
        }
        match (self.verdicts, world.history.issuer(message)) {
            (Verdicts::Outside, _) | (_, None) => true,
            (_, Some(issuer)) => issuer == Some(Sender::Registrar),
        }
    }
}

/// The id of a transaction in one of these states, or any id.
fn pick_id(world: &World, states: &[TransactionState], random: &mut Random) -> TransactionId {
    let fitting: Vec<TransactionId> = world
        .registrar
        .transactions()
        .filter(|(_, transaction)| states.contains(&transaction.state))
        .map(|(_, transaction)| transaction.id)
        .collect();
    if fitting.is_empty() || random.once_in(8) {
        TransactionId(any_number(world.ids, random))
    } else {
        *random.pick(&fitting)
    }
}

/// Mostly with the hash of the certificate that was issued.
fn decide(world: &World, number: usize, random: &mut Random) -> Decision {
    let id = world.enrolments[number].end.enrolment().id;
    let issued = world.registrar.find(id).map(|(_, found)| found.hash);
    Decision {
        accept: !random.once_in(3),
        hash: match issued {
            Some(issued) if !random.once_in(8) => issued,
            _ => hash(random),
        },
    }
}
