//! The five claims of demand 3, on the states of both ends and the test's own
//! history.

use super::history::History;
use super::world::{BoardEnrolment, World};
use duskstall_host::{Enrolment, EnrolmentState, Transaction, TransactionState};

/// What the claims say, for the report.
const NAMES: [&str; 5] = [
    "Sure, until closed: Confirmed with the same hash",
    "Declined, until closed: Declined",
    "Confirmed: the board has the hash and says Sure, Confirming or Unsettled",
    "Failed: never Confirmed",
    "agreement, or Confirming, Declining or Unsettled",
];

/// How often each claim had something to say, and how often it did not hold.
#[derive(Default)]
pub struct Claims {
    pub said: [usize; 5],
    pub broken: [usize; 5],
}

impl Claims {
    pub fn check(&mut self, world: &World) {
        let slots = world.registrar.transactions();
        let table: Vec<Transaction> = slots.map(|(_, transaction)| transaction).collect();
        let records: Vec<Enrolment> = world
            .enrolments
            .iter()
            .map(|enrolled| enrolled.end.enrolment())
            .collect();
        for (enrolled, enrolment) in world.enrolments.iter().zip(&records) {
            self.check_enrolment(enrolled, enrolment, &table, &world.history);
        }
        for transaction in &table {
            if transaction.state == TransactionState::Confirmed {
                let holds = board_has_it(transaction, &world.enrolments, &records);
                self.note(2, holds);
            }
        }
    }

    fn check_enrolment(
        &mut self,
        enrolled: &BoardEnrolment,
        enrolment: &Enrolment,
        table: &[Transaction],
        history: &History,
    ) {
        let found = table.iter().find(|other| other.id == enrolment.id);
        let at = |state| found.is_some_and(|found| found.state == state);
        // The transaction whose response the certConf answered.
        let own = enrolled.answered.map(|nonce| {
            let open = found.filter(|found| found.sent == nonce);
            (history.is_closed(enrolment.id, nonce), open)
        });
        let own_at = |state| match own {
            Some((closed, open)) => closed || open.is_some_and(|open| open.state == state),
            None => false,
        };
        let agrees = match enrolment.state {
            EnrolmentState::Sure => {
                let same_hash = match own {
                    Some((false, Some(open))) => open.hash == enrolment.hash,
                    _ => true,
                };
                let confirmed = own_at(TransactionState::Confirmed);
                self.note(0, confirmed && same_hash);
                confirmed
            }
            EnrolmentState::Declined => {
                let declined = own_at(TransactionState::Declined);
                self.note(1, declined);
                declined
            }
            EnrolmentState::Asked | EnrolmentState::Failed => {
                if enrolment.state == EnrolmentState::Failed {
                    self.note(3, !history.was_confirmed(enrolment.id));
                }
                !at(TransactionState::Confirmed) && !at(TransactionState::Declined)
            }
            EnrolmentState::Confirming | EnrolmentState::Declining | EnrolmentState::Unsettled => {
                true
            }
        };
        self.note(4, agrees);
    }

    fn note(&mut self, claim: usize, holds: bool) {
        self.said[claim] += 1;
        self.broken[claim] += usize::from(!holds);
    }

    pub fn report(&self) {
        for (number, name) in NAMES.iter().enumerate() {
            let (said, broken) = (self.said[number], self.broken[number]);
            println!(
                "  claim {}: checked {said}, broken {broken} ({name})",
                number + 1
            );
        }
    }
}

/// Exactly one enrolment has the id, it is of the board that the transaction
/// names, with the same hash and in one of three states.
fn board_has_it(
    transaction: &Transaction,
    enrolments: &[BoardEnrolment],
    records: &[Enrolment],
) -> bool {
    let mut same_id = enrolments
        .iter()
        .zip(records)
        .filter(|(_, enrolment)| enrolment.id == transaction.id);
    let (Some((enrolled, enrolment)), None) = (same_id.next(), same_id.next()) else {
        return false;
    };
    enrolled.board == transaction.board
        && enrolment.hash == transaction.hash
        && matches!(
            enrolment.state,
            EnrolmentState::Sure | EnrolmentState::Confirming | EnrolmentState::Unsettled
        )
}
