//! The claims of demand 3, checked on the states of both ends after each call.
//! Nothing is closed in the demonstration, so "until the desk closes that
//! record" does not come up.

use crate::world::BoardHost;
use duskstall_host::{EnrolmentState, Registrar, TransactionId, TransactionState};
use std::collections::BTreeSet;

/// In the words of the demand, with the registrar for the desk.
const CLAIMS: [&str; 5] = [
    "a board that says Sure finds its record Confirmed with the same hash",
    "a board that says Declined finds its record Declined",
    "at Confirmed the board has the same hash and says Sure, Confirming or Unsettled",
    "for a board that says Failed the registrar said Confirmed at no point",
    "a board that says Asked or Failed finds neither Confirmed nor Declined",
];

#[derive(Default)]
pub struct Claims {
    /// How often each claim had something to say, and how often it did not hold.
    said: [usize; 5],
    broken: [usize; 5],
    /// Those that the registrar ever said Confirmed of.
    confirmed: BTreeSet<TransactionId>,
}

impl Claims {
    pub fn check(&mut self, registrar: &Registrar, boards: &[BoardHost]) {
        for board in boards {
            let enrolment = board.end.enrolment();
            let found = registrar.find(enrolment.id).map(|(_, found)| found);
            let at = |state| found.is_some_and(|found| found.state == state);
            let same_hash = found.is_some_and(|found| found.hash == enrolment.hash);
            let confirmed = at(TransactionState::Confirmed);
            let declined = at(TransactionState::Declined);
            if confirmed {
                self.confirmed.insert(enrolment.id);
                let fits = matches!(
                    enrolment.state,
                    EnrolmentState::Sure | EnrolmentState::Confirming | EnrolmentState::Unsettled
                );
                self.note(
                    2,
                    same_hash && fits && found.is_some_and(|f| f.board == board.number),
                );
            }
            match enrolment.state {
                EnrolmentState::Sure => self.note(0, confirmed && same_hash),
                EnrolmentState::Declined => self.note(1, declined),
                EnrolmentState::Failed => {
                    self.note(3, !self.confirmed.contains(&enrolment.id));
                    self.note(4, !confirmed && !declined);
                }
                EnrolmentState::Asked => self.note(4, !confirmed && !declined),
                EnrolmentState::Confirming
                | EnrolmentState::Declining
                | EnrolmentState::Unsettled => {}
            }
        }
    }

    fn note(&mut self, claim: usize, holds: bool) {
        self.said[claim] += 1;
        self.broken[claim] += usize::from(!holds);
    }

    /// Prints each claim, and last whether all hold.
    pub fn report(&self, calls: usize) -> bool {
        println!("The claims of demand 3, checked after each of {calls} calls:");
        for (number, claim) in CLAIMS.iter().enumerate() {
            let verdict = match (self.said[number], self.broken[number]) {
                (0, _) => "did not come up".to_string(),
                (said, 0) => format!("held {said} times"),
                (said, broken) => format!("BROKEN {broken} times of {said}"),
            };
            println!("  {claim}: {verdict}");
        }
        let all_hold = self.broken == [0; 5];
        println!(
            "{}",
            if all_hold {
                "All claims hold."
            } else {
                "NOT ALL CLAIMS HOLD."
            }
        );
        all_hold
    }
}
