//! The comparison of both writers, and the counts that show it was not idle.

use super::back::reads_back;
use duskstall_host::independent::writer::{Misfit, Unwritten};
use duskstall_host::testing::writing::Call;
use duskstall_host::MESSAGE_LIMIT;
use std::collections::BTreeMap;

/// Bytes behind the lent buffer, which no call may reach.
const GUARD: usize = 16;

/// How often what was answered.
#[derive(Default)]
pub struct Tally {
    calls: usize,
    /// Messages by kind.
    pub written: BTreeMap<u8, usize>,
    /// Of the refused by 34, and of those by 35: all, and those that would be
    /// refused by a higher number, too.
    pub over_limit: Refused,
    pub too_short: Refused,
    pub misfits: BTreeMap<Misfit, usize>,
    pub longest: usize,
}

#[derive(Default, Debug)]
pub struct Refused {
    pub all: usize,
    pub by_35: usize,
    pub by_36: usize,
}

impl Tally {
    /// Compares both writers with a buffer of so many bytes. Gives the message, or
    /// why there is none.
    pub fn compare(&mut self, call: &Call, room: usize) -> Result<Vec<u8>, Unwritten> {
        self.calls += 1;
        let fill = self.calls as u8;
        let mut lent = vec![fill; room + GUARD];
        let mut expected = lent.clone();
        let answer = call.independently(&mut expected[..room]);
        let number = match answer {
            Ok(size) => size as u64,
            Err(why) => u64::from(why.number()) << 32,
        };
        let given = call.by_library(&mut lent[..room]);
        assert_eq!(given, number, "{answer:?}, {room}: {call:02X?}");
        assert!(lent == expected, "other bytes, {room}: {call:02X?}");
        self.count(call, room, &answer);
        answer.map(|size| {
            lent.truncate(size);
            lent
        })
    }

    /// The same where there is room, for a call that has to give a message; it is
    /// read, too.
    pub fn written(&mut self, call: &Call) -> Vec<u8> {
        let message = self.compare(call, MESSAGE_LIMIT);
        let message = message.unwrap_or_else(|why| panic!("{why:?}: {call:02X?}"));
        reads_back(call, &message);
        message
    }

    fn count(&mut self, call: &Call, room: usize, answer: &Result<usize, Unwritten>) {
        let refused = match answer {
            Ok(size) => {
                self.longest = self.longest.max(*size);
                *self.written.entry(call.outgoing[0]).or_default() += 1;
                return;
            }
            Err(Unwritten::Misfit(misfit)) => {
                *self.misfits.entry(*misfit).or_default() += 1;
                return;
            }
            Err(Unwritten::OverLimit) => &mut self.over_limit,
            Err(Unwritten::BufferTooShort) => &mut self.too_short,
        };
        let (size, misfit) = call.size_and_misfit();
        refused.all += 1;
        refused.by_35 += usize::from(size > room);
        refused.by_36 += usize::from(misfit.is_some());
    }

    pub fn report(&self, name: &str) {
        let sum = |counts: &mut dyn Iterator<Item = &usize>| counts.sum::<usize>();
        println!("{name}: {} calls", self.calls);
        println!(
            "  written {}, the longest {} bytes, by kind {:?}",
            sum(&mut self.written.values()),
            self.longest,
            self.written
        );
        for (number, refused) in [(34, &self.over_limit), (35, &self.too_short)] {
            let Refused { all, by_35, by_36 } = refused;
            println!("  refused by {number}: {all} (35 as well {by_35}, 36 as well {by_36})");
        }
        let by_36 = sum(&mut self.misfits.values());
        println!("  refused by 36: {by_36}");
        for (misfit, count) in &self.misfits {
            println!("    {count}: {misfit:?}");
        }
    }
}
