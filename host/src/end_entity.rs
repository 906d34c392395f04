//! An end entity, run by the compiled library.

use crate::answers::{self, END_ENTITY_ANSWER_BYTES};
use crate::ends::{Decision, EndEntityAnswer, FreshNonce, Outcome, Outgoing, TransactionId};
use crate::library;
use crate::refusal::Refusal;
use crate::states::{Enrolment, ENROLMENT_BYTES};

/// An end entity with one enrolment, in the library's bytes.
///
/// Every call answers, whatever it is given. A refused call leaves the
/// enrolment as it was.
///
/// ```
/// use duskstall_host::{EndEntity, EnrolmentState, FreshNonce, Outcome, TransactionId};
///
/// let (mut board, request) = EndEntity::start(2, TransactionId([1; 16]), FreshNonce([2; 16]))?;
/// assert_eq!((request.kind, request.recip_nonce), (2, None));
/// assert_eq!(board.enrolment().state, EnrolmentState::Asked);
///
/// assert_eq!(board.time_out().outcome, Outcome::Done);
/// assert_eq!(board.enrolment().state, EnrolmentState::Failed);
/// # Ok::<(), duskstall_host::Refusal>(())
/// ```
#[derive(Clone, Debug, PartialEq, Eq)]
pub struct EndEntity {
    /// Always bytes that [`Enrolment::unpack`] takes.
    enrolment: [u8; ENROLMENT_BYTES],
}

impl EndEntity {
    /// Starts an enrolment of this kind: 0 (ir), 2 (cr), 4 (p10cr) or 7 (kur).
    /// Gives the request to be sent. A refused start makes no enrolment.
    ///
    /// ```
    /// use duskstall_host::{EndEntity, FreshNonce, TransactionId};
    ///
    /// let refused = EndEntity::start(1, TransactionId([1; 16]), FreshNonce([2; 16]));
    /// assert_eq!(refused.map_err(|refusal| refusal.number), Err(32));
    /// ```
    pub fn start(
        kind: u8,
        id: TransactionId,
        nonce: FreshNonce,
    ) -> Result<(EndEntity, Outgoing), Refusal> {
        let mut end_entity = EndEntity {
            enrolment: [0; ENROLMENT_BYTES],
        };
        let answer = end_entity.call(|enrolment, answer| {
            library::end_entity_start(enrolment, kind, &id.0, &nonce.0, answer)
        });
        match (answer.outcome, answer.outgoing) {
            (Outcome::Done, Some(request)) => Ok((end_entity, request)),
            (Outcome::Refused(refusal), _) => Err(refusal),
            _ => Err(Refusal::OUTSIDE_CONTRACT),
        }
    }

    /// The enrolment from bytes that [`EndEntity::as_bytes`] gave, or any
    /// others that are one.
    ///
    /// ```
    /// use duskstall_host::{EndEntity, ENROLMENT_BYTES};
    ///
    /// let failed = [5; ENROLMENT_BYTES];
    /// let board = EndEntity::from_bytes(&failed).expect("5 is a state");
    /// assert_eq!(board.as_bytes(), &failed);
    /// assert_eq!(EndEntity::from_bytes(&[7; ENROLMENT_BYTES]), None);
    /// assert_eq!(EndEntity::from_bytes(&[5; ENROLMENT_BYTES - 1]), None);
    /// ```
    pub fn from_bytes(bytes: &[u8]) -> Option<EndEntity> {
        let mut enrolment: [u8; ENROLMENT_BYTES] = bytes.try_into().ok()?;
        // Without room for an answer the library only judges the enrolment.
        match library::end_entity_time_out(&mut enrolment, &mut []) {
            library::NO_ROOM => EndEntity::checked(enrolment),
            _ => None,
        }
    }

    /// The enrolment's bytes, to be kept.
    pub fn as_bytes(&self) -> &[u8; ENROLMENT_BYTES] {
        &self.enrolment
    }

    /// The enrolment in these bytes.
    pub fn enrolment(&self) -> Enrolment {
        Enrolment::unpack(&self.enrolment).expect("checked when it was made")
    }

    /// A message of any bytes; `good` if its protection was found good for the
    /// registrar. The decision and the fresh nonce are used where the message
    /// is a response with a certificate, which a certConf answers.
    pub fn message(
        &mut self,
        message: &[u8],
        good: bool,
        decision: Decision,
        nonce: FreshNonce,
    ) -> EndEntityAnswer {
        let good = match good {
            true => library::VERDICT_GOOD,
            false => library::VERDICT_BAD,
        };
        let accept = match decision.accept {
            true => library::DECISION_ACCEPT,
            false => library::DECISION_DECLINE,
        };
        let hash = &decision.hash.0;
        self.call(|enrolment, answer| {
            library::end_entity_message(enrolment, message, good, accept, hash, &nonce.0, answer)
        })
    }

    /// Gives up waiting for an answer.
    pub fn time_out(&mut self) -> EndEntityAnswer {
        self.call(library::end_entity_time_out)
    }

    fn checked(enrolment: [u8; ENROLMENT_BYTES]) -> Option<EndEntity> {
        Enrolment::unpack(&enrolment).map(|_| EndEntity { enrolment })
    }

    fn call(&mut self, call: impl FnOnce(&mut [u8], &mut [u8]) -> u64) -> EndEntityAnswer {
        let mut enrolment = self.enrolment;
        let mut answer = [0; END_ENTITY_ANSWER_BYTES];
        let number = call(&mut enrolment, &mut answer);
        match EndEntity::checked(enrolment) {
            Some(next) => {
                *self = next;
                answers::end_entity(number, &answer)
            }
            None => answers::OUTSIDE_CONTRACT,
        }
    }
}
