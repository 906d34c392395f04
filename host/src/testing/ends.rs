//! One name for the ends that the compiled library runs and for those of the
//! model, so that a test is written once and runs on both.

use crate::ends::{
    CertHash, Decision, EndEntityAnswer, FreshNonce, Outgoing, RegistrarAnswer, Slot,
    TransactionId, Verdict,
};
use crate::refusal::Refusal;
use crate::states::{Enrolment, Transaction};
use crate::{model, EndEntity, Registrar};

/// A registrar and the end entities that go with it.
pub trait Ends {
    type Registrar: RegistrarEnd;
    type EndEntity: EndEntityEnd;
}

/// Those of the compiled library.
pub struct Compiled;

impl Ends for Compiled {
    type Registrar = Registrar;
    type EndEntity = EndEntity;
}

/// Those of the model.
pub struct Model;

impl Ends for Model {
    type Registrar = model::Registrar;
    type EndEntity = model::EndEntity;
}

/// A registrar.
pub trait RegistrarEnd: Clone + PartialEq {
    fn empty() -> Self;
    fn message(&mut self, message: &[u8], verdict: Verdict, nonce: FreshNonce) -> RegistrarAnswer;
    fn issue(&mut self, id: TransactionId, nonce: FreshNonce, hash: CertHash) -> RegistrarAnswer;
    fn refuse(&mut self, id: TransactionId, nonce: FreshNonce) -> RegistrarAnswer;
    fn lapse(&mut self, id: TransactionId) -> RegistrarAnswer;
    fn close(&mut self, id: TransactionId) -> RegistrarAnswer;
    /// The slots in use and what they hold.
    fn transactions(&self) -> Vec<(Slot, Transaction)>;

    /// The transaction with this id, and its slot.
    fn find(&self, id: TransactionId) -> Option<(Slot, Transaction)> {
        self.transactions()
            .into_iter()
            .find(|(_, transaction)| transaction.id == id)
    }
}

/// An end entity with one enrolment.
pub trait EndEntityEnd: Clone + PartialEq {
    fn start(kind: u8, id: TransactionId, nonce: FreshNonce) -> Result<(Self, Outgoing), Refusal>;
    fn message(
        &mut self,
        message: &[u8],
        good: bool,
        decision: Decision,
        nonce: FreshNonce,
    ) -> EndEntityAnswer;
    fn time_out(&mut self) -> EndEntityAnswer;
    fn enrolment(&self) -> Enrolment;
}

/// The calls of both ends have the same names in the library and the model.
macro_rules! same_calls {
    ($registrar:ty, $end_entity:ty) => {
        impl RegistrarEnd for $registrar {
            fn empty() -> Self {
                <$registrar>::default()
            }

            fn message(
                &mut self,
                message: &[u8],
                verdict: Verdict,
                nonce: FreshNonce,
            ) -> RegistrarAnswer {
                self.message(message, verdict, nonce)
            }

            fn issue(
                &mut self,
                id: TransactionId,
                nonce: FreshNonce,
                hash: CertHash,
            ) -> RegistrarAnswer {
                self.issue(id, nonce, hash)
            }

            fn refuse(&mut self, id: TransactionId, nonce: FreshNonce) -> RegistrarAnswer {
                self.refuse(id, nonce)
            }

            fn lapse(&mut self, id: TransactionId) -> RegistrarAnswer {
                self.lapse(id)
            }

            fn close(&mut self, id: TransactionId) -> RegistrarAnswer {
                self.close(id)
            }

            fn transactions(&self) -> Vec<(Slot, Transaction)> {
                self.transactions().collect()
            }
        }

        impl EndEntityEnd for $end_entity {
            fn start(
                kind: u8,
                id: TransactionId,
                nonce: FreshNonce,
            ) -> Result<(Self, Outgoing), Refusal> {
                <$end_entity>::start(kind, id, nonce)
            }

            fn message(
                &mut self,
                message: &[u8],
                good: bool,
                decision: Decision,
                nonce: FreshNonce,
            ) -> EndEntityAnswer {
                self.message(message, good, decision, nonce)
            }

            fn time_out(&mut self) -> EndEntityAnswer {
                self.time_out()
            }

            fn enrolment(&self) -> Enrolment {
                self.enrolment()
            }
        }
    };
}

same_calls!(Registrar, EndEntity);
same_calls!(model::Registrar, model::EndEntity);
