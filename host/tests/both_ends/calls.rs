//! A call with all that it is lent, and how it runs on the compiled library and
//! on the model behind the same boundary.

use super::pack;
use duskstall_host::library::{self, BAD_LENGTH, NO_ROOM, NO_STATE};
use duskstall_host::model::{EndEntity, Registrar};
use duskstall_host::{
    Board, CertHash, Decision, EndEntityAnswer, Enrolment, FreshNonce, Outcome, RegistrarAnswer,
    TransactionId, Verdict, END_ENTITY_ANSWER_BYTES, ENROLMENT_BYTES, REGISTRAR_ANSWER_BYTES,
};

/// A call that changes a state in bytes and puts its answer into others.
pub trait Call {
    /// The message, if it is a call that takes one.
    fn message(&self) -> Option<&[u8]>;
    fn on_library(&self, state: &mut [u8], answer: &mut [u8]) -> u64;
    fn on_model(&self, state: &mut [u8], answer: &mut [u8]) -> u64;
}

/// A call of the registrar, without its table and its answer.
#[derive(Clone, Debug)]
pub enum RegistrarCall {
    Message {
        message: Vec<u8>,
        good: u8,
        board: u16,
        nonce: Vec<u8>,
    },
    Issue {
        id: Vec<u8>,
        nonce: Vec<u8>,
        hash: Vec<u8>,
    },
    Refuse {
        id: Vec<u8>,
        nonce: Vec<u8>,
    },
    Lapse {
        id: Vec<u8>,
    },
    Close {
        id: Vec<u8>,
    },
}

impl Call for RegistrarCall {
    fn message(&self) -> Option<&[u8]> {
        match self {
            RegistrarCall::Message { message, .. } => Some(message),
            _ => None,
        }
    }

    fn on_library(&self, state: &mut [u8], answer: &mut [u8]) -> u64 {
        use RegistrarCall::*;
        match self {
            Message {
                message,
                good,
                board,
                nonce,
            } => library::registrar_message(state, message, *good, *board, nonce, answer),
            Issue { id, nonce, hash } => library::registrar_issue(state, id, nonce, hash, answer),
            Refuse { id, nonce } => library::registrar_refuse(state, id, nonce, answer),
            Lapse { id } => library::registrar_lapse(state, id, answer),
            Close { id } => library::registrar_close(state, id, answer),
        }
    }

    fn on_model(&self, state: &mut [u8], answer: &mut [u8]) -> u64 {
        let Some(mut registrar) = pack::unpack_table(state) else {
            return NO_STATE;
        };
        let Some(result) = self.run(&mut registrar) else {
            return BAD_LENGTH;
        };
        let Some(answer) = answer.get_mut(..REGISTRAR_ANSWER_BYTES) else {
            return NO_ROOM;
        };
        answer.copy_from_slice(&pack::registrar_answer(result));
        state.copy_from_slice(&pack::table(&registrar));
        pack::number(result.outcome).into()
    }
}

impl RegistrarCall {
    /// None where an id, a nonce or a hash has another length.
    fn run(&self, model: &mut Registrar) -> Option<RegistrarAnswer> {
        use RegistrarCall::*;
        Some(match self {
            Message {
                message,
                good,
                board,
                nonce,
            } => {
                let verdict = match good {
                    1 => Verdict::Good(Board(*board)),
                    _ => Verdict::Bad,
                };
                model.message(message, verdict, to_nonce(nonce)?)
            }
            Issue { id, nonce, hash } => model.issue(to_id(id)?, to_nonce(nonce)?, to_hash(hash)?),
            Refuse { id, nonce } => model.refuse(to_id(id)?, to_nonce(nonce)?),
            Lapse { id } => model.lapse(to_id(id)?),
            Close { id } => model.close(to_id(id)?),
        })
    }
}

/// A call of an end entity, without its enrolment and its answer.
#[derive(Clone, Debug)]
pub enum EndEntityCall {
    Start {
        kind: u8,
        id: Vec<u8>,
        nonce: Vec<u8>,
    },
    Message(EndEntityMessage),
    TimeOut,
}

/// A message at an end entity and what its host hands in with it.
#[derive(Clone, Debug)]
pub struct EndEntityMessage {
    pub message: Vec<u8>,
    pub good: u8,
    pub accept: u8,
    pub hash: Vec<u8>,
    pub nonce: Vec<u8>,
}

impl Call for EndEntityCall {
    fn message(&self) -> Option<&[u8]> {
        match self {
            EndEntityCall::Message(given) => Some(&given.message),
            _ => None,
        }
    }

    fn on_library(&self, state: &mut [u8], answer: &mut [u8]) -> u64 {
        use EndEntityCall::*;
        match self {
            Start { kind, id, nonce } => library::end_entity_start(state, *kind, id, nonce, answer),
            Message(given) => library::end_entity_message(
                state,
                &given.message,
                given.good,
                given.accept,
                &given.hash,
                &given.nonce,
                answer,
            ),
            TimeOut => library::end_entity_time_out(state, answer),
        }
    }

    fn on_model(&self, state: &mut [u8], answer: &mut [u8]) -> u64 {
        use EndEntityCall::*;
        match self {
            Start { kind, id, nonce } => start(*kind, id, nonce, state, answer),
            Message(given) => step(state, answer, |model| {
                let (good, accept) = (given.good == 1, given.accept == 1);
                let (hash, nonce) = (to_hash(&given.hash)?, to_nonce(&given.nonce)?);
                Some(model.message(&given.message, good, Decision { accept, hash }, nonce))
            }),
            TimeOut => step(state, answer, |model| Some(model.time_out())),
        }
    }
}

/// A call on an enrolment that there is.
fn step(
    state: &mut [u8],
    answer: &mut [u8],
    run: impl FnOnce(&mut EndEntity) -> Option<EndEntityAnswer>,
) -> u64 {
    let Some(enrolment) = Enrolment::unpack(state) else {
        return NO_STATE;
    };
    let mut model = EndEntity { enrolment };
    match run(&mut model) {
        Some(result) => finish(Some(model), result, state, answer),
        None => BAD_LENGTH,
    }
}

/// A start writes a new enrolment, whatever the bytes were.
fn start(kind: u8, id: &[u8], nonce: &[u8], state: &mut [u8], answer: &mut [u8]) -> u64 {
    if state.len() != ENROLMENT_BYTES {
        return NO_STATE;
    }
    let (Some(id), Some(nonce)) = (to_id(id), to_nonce(nonce)) else {
        return BAD_LENGTH;
    };
    let (model, outcome, outgoing) = match EndEntity::start(kind, id, nonce) {
        Ok((model, request)) => (Some(model), Outcome::Done, Some(request)),
        Err(refusal) => (None, Outcome::Refused(refusal), None),
    };
    let result = EndEntityAnswer { outcome, outgoing };
    finish(model, result, state, answer)
}

fn finish(
    model: Option<EndEntity>,
    result: EndEntityAnswer,
    state: &mut [u8],
    answer: &mut [u8],
) -> u64 {
    let Some(answer) = answer.get_mut(..END_ENTITY_ANSWER_BYTES) else {
        return NO_ROOM;
    };
    answer.copy_from_slice(&pack::end_entity_answer(result));
    if let Some(model) = model {
        state.copy_from_slice(&model.enrolment.pack());
    }
    pack::number(result.outcome).into()
}

fn to_id(bytes: &[u8]) -> Option<TransactionId> {
    Some(TransactionId(bytes.try_into().ok()?))
}

fn to_nonce(bytes: &[u8]) -> Option<FreshNonce> {
    Some(FreshNonce(bytes.try_into().ok()?))
}

fn to_hash(bytes: &[u8]) -> Option<CertHash> {
    Some(CertHash(bytes.try_into().ok()?))
}
