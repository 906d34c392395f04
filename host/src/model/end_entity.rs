//! "The board's states": one enrolment of a board.

use super::incoming::Incoming;
use super::{is_request, plain, refusal, refuse_if, request_number, response_to};
use super::{ACCEPTED, CERT_CONF, ERROR, GRANTED_WITH_MODS, PKICONF, REJECTION};
use crate::ends::{
    CertHash, Decision, EndEntityAnswer, FreshNonce, Nonce, Outcome, Outgoing, TransactionId,
};
use crate::refusal::Refusal;
use crate::states::{Enrolment, EnrolmentState};

/// An end entity with one enrolment.
#[derive(Clone, Debug, PartialEq, Eq)]
pub struct EndEntity {
    pub enrolment: Enrolment,
}

impl EndEntity {
    /// A new enrolment and its request.
    pub fn start(
        kind: u8,
        id: TransactionId,
        nonce: FreshNonce,
    ) -> Result<(EndEntity, Outgoing), Refusal> {
        refuse_if(!is_request(kind), 32)?;
        let request = plain(kind, id, nonce, None);
        let enrolment = Enrolment {
            id,
            kind,
            last: request.sender_nonce,
            taken: Nonce::default(),
            hash: CertHash::default(),
            state: EnrolmentState::Asked,
        };
        Ok((EndEntity { enrolment }, request))
    }

    /// A message step. The decision and the fresh nonce are for the certConf,
    /// if there is one to be sent.
    pub fn message(
        &mut self,
        bytes: &[u8],
        good: bool,
        decision: Decision,
        nonce: FreshNonce,
    ) -> EndEntityAnswer {
        answer(self.take(bytes, good, decision, nonce))
    }

    fn take(
        &mut self,
        bytes: &[u8],
        good: bool,
        decision: Decision,
        nonce: FreshNonce,
    ) -> Result<Option<Outgoing>, Refusal> {
        let message = Incoming::read(bytes)?;
        message.check_protected()?;
        refuse_if(!good, 7)?;
        let taken = [response_to(self.enrolment.kind), PKICONF, ERROR];
        refuse_if(!taken.contains(&message.kind), 8)?;
        refuse_if(message.id != self.enrolment.id, 12)?;
        refuse_if(!message.answers(self.enrolment.last), 14)?;
        match message.kind {
            PKICONF => self.acknowledge(),
            ERROR => self.fail(message.status),
            _ => self.respond(&message, decision, nonce),
        }
    }

    /// A response: "status 2 gives Failed; 0 or 1 gives, by the host's
    /// decision, Confirming or Declining".
    fn respond(
        &mut self,
        message: &Incoming,
        decision: Decision,
        nonce: FreshNonce,
    ) -> Result<Option<Outgoing>, Refusal> {
        message.check_one_entry(self.enrolment.kind)?;
        let granted = match message.status {
            Some(ACCEPTED | GRANTED_WITH_MODS) => true,
            Some(REJECTION) => false,
            _ => return Err(refusal(18)),
        };
        refuse_if(self.enrolment.state != EnrolmentState::Asked, 20)?;
        refuse_if(granted && !message.certificate, 21)?;
        if !granted {
            self.enrolment.state = EnrolmentState::Failed;
            return Ok(None);
        }
        let (state, status) = if decision.accept {
            (EnrolmentState::Confirming, ACCEPTED)
        } else {
            (EnrolmentState::Declining, REJECTION)
        };
        let answered = Some(message.sender_nonce);
        let cert_conf = Outgoing {
            status: Some(status as u32),
            hash: Some(decision.hash),
            number: Some(request_number(self.enrolment.kind)),
            ..plain(CERT_CONF, self.enrolment.id, nonce, answered)
        };
        self.enrolment = Enrolment {
            last: cert_conf.sender_nonce,
            taken: message.sender_nonce,
            hash: decision.hash,
            state,
            ..self.enrolment
        };
        Ok(Some(cert_conf))
    }

    /// pkiconf: "Confirming to Sure, Declining to Declined".
    fn acknowledge(&mut self) -> Result<Option<Outgoing>, Refusal> {
        self.enrolment.state = match self.enrolment.state {
            EnrolmentState::Confirming => EnrolmentState::Sure,
            EnrolmentState::Declining => EnrolmentState::Declined,
            _ => return Err(refusal(20)),
        };
        Ok(None)
    }

    /// An error message.
    fn fail(&mut self, status: Option<i32>) -> Result<Option<Outgoing>, Refusal> {
        refuse_if(status != Some(REJECTION), 18)?;
        self.enrolment.state = given_up(self.enrolment.state).ok_or(refusal(20))?;
        Ok(None)
    }

    /// What the board keeps.
    pub fn enrolment(&self) -> Enrolment {
        self.enrolment
    }

    /// No answer came in time.
    pub fn time_out(&mut self) -> EndEntityAnswer {
        answer(match given_up(self.enrolment.state) {
            Some(state) => {
                self.enrolment.state = state;
                Ok(None)
            }
            None => Err(refusal(31)),
        })
    }
}

/// "Asked to Failed, Confirming or Declining to Unsettled": once a certConf
/// was sent, the registrar may have taken it.
fn given_up(state: EnrolmentState) -> Option<EnrolmentState> {
    match state {
        EnrolmentState::Asked => Some(EnrolmentState::Failed),
        EnrolmentState::Confirming | EnrolmentState::Declining => Some(EnrolmentState::Unsettled),
        _ => None,
    }
}

fn answer(result: Result<Option<Outgoing>, Refusal>) -> EndEntityAnswer {
    match result {
        Ok(outgoing) => EndEntityAnswer {
            outcome: Outcome::Done,
            outgoing,
        },
        Err(refusal) => EndEntityAnswer {
            outcome: Outcome::Refused(refusal),
            outgoing: None,
        },
    }
}
