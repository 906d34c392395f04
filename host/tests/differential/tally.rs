//! The comparison of the two readers, and the counts that show it was not idle.

use duskstall_host::testing::der::show;
use duskstall_host::testing::messages::LAST_KIND;
use duskstall_host::{compiled, independent, Reading, Refused};
use std::fmt::Debug;

/// How many messages were compared and what both readers said of them.
#[derive(Default)]
pub struct Tally {
    /// Clean readings by body kind.
    pub accepted: [usize; LAST_KIND as usize + 1],
    /// Refusals by size, number 1.
    pub refused_by_size: usize,
    /// Refusals by rule, number 2.
    pub refused_by_rule: [usize; 6],
    /// Runs of elements that are sound, and those that are not.
    pub sound_runs: usize,
    pub unsound_runs: usize,
}

impl Tally {
    /// Compares both readers on a message, and both checks on its bytes as a
    /// run of elements. Gives the answer they agree on.
    pub fn message(&mut self, message: &[u8]) -> Result<Reading, Refused> {
        let answer = same(independent::read(message), compiled::read(message), message);
        match answer {
            Ok(reading) => self.accepted[usize::from(reading.kind)] += 1,
            Err(Refused { number: 1, .. }) => self.refused_by_size += 1,
            Err(Refused { rule, .. }) => self.refused_by_rule[usize::from(rule)] += 1,
        }
        self.run(message);
        answer
    }

    /// Compares both checks on a run of elements.
    pub fn run(&mut self, bytes: &[u8]) -> Option<(usize, u8)> {
        let answer = same(
            independent::check_elements(bytes),
            compiled::check_elements(bytes),
            bytes,
        );
        match answer {
            None => self.sound_runs += 1,
            Some(_) => self.unsound_runs += 1,
        }
        answer
    }

    /// Compares both readers on a message that has to read clean.
    pub fn clean(&mut self, message: &[u8]) -> Reading {
        self.message(message)
            .unwrap_or_else(|refused| panic!("{refused:?}: {}", show(message)))
    }

    /// Compares both readers on a message that refusal 2 has to name so.
    pub fn fault(&mut self, message: &[u8], offset: usize, rule: u8) {
        let expected = Err(Refused {
            number: 2,
            offset,
            rule,
        });
        assert_eq!(self.message(message), expected, "{}", show(message));
    }

    pub fn accepted(&self) -> usize {
        self.accepted.iter().sum()
    }

    pub fn refused(&self) -> usize {
        self.refused_by_size + self.refused_by_rule.iter().sum::<usize>()
    }

    /// Prints the counts: the clean readings with the number of body kinds met
    /// in them, the refusals by number and by rule, and the runs of elements.
    pub fn report(&self, name: &str) {
        let [_, tag, length, form, content, grammar] = self.refused_by_rule;
        let kinds = self.accepted.iter().filter(|count| **count > 0).count();
        println!("{name}: {} messages", self.accepted() + self.refused());
        println!("  accepted {} (body kinds {kinds})", self.accepted());
        println!("  refused {}", self.refused());
        println!("    number 1: {}", self.refused_by_size);
        println!("    number 2: rule 1 {tag}, rule 2 {length}, rule 3 {form}, rule 4 {content}, rule 5 {grammar}");
        println!(
            "  runs of elements: {} sound, {} not",
            self.sound_runs, self.unsound_runs
        );
    }
}

/// The answer of both, which may not differ.
fn same<Answer: PartialEq + Debug>(independent: Answer, compiled: Answer, bytes: &[u8]) -> Answer {
    assert!(
        independent == compiled,
        "they differ on {}\nindependent {independent:?}\ncompiled    {compiled:?}",
        show(bytes),
    );
    independent
}
