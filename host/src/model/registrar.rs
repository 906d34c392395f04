//! "The desk's states": the registrar and its table.

use super::incoming::Incoming;
use super::{is_request, plain, refusal, refuse_if, request_number, response_to};
use super::{ACCEPTED, CERT_CONF, ERROR, P10CR, PKICONF, REJECTION};
use crate::ends::{
    Board, CertHash, FreshNonce, Nonce, Outcome, Outgoing, RegistrarAnswer, Slot, TransactionId,
    Verdict,
};
use crate::limits::SLOTS;
use crate::refusal::Refusal;
use crate::states::{Transaction, TransactionState};

/// The registrar.
#[derive(Clone, Debug, PartialEq, Eq)]
pub struct Registrar {
    pub transactions: [Transaction; SLOTS],
}

/// The empty table. Written out, as Rust derives it for up to 32 slots only.
impl Default for Registrar {
    fn default() -> Self {
        Registrar {
            transactions: [Transaction::default(); SLOTS],
        }
    }
}

/// What a call that is not refused gives.
struct Done {
    outcome: Outcome,
    slot: usize,
    outgoing: Option<Outgoing>,
}

impl Registrar {
    /// A message step. `nonce` is fresh, for what is sent.
    pub fn message(
        &mut self,
        bytes: &[u8],
        verdict: Verdict,
        nonce: FreshNonce,
    ) -> RegistrarAnswer {
        let message = match Incoming::read(bytes) {
            Ok(message) => message,
            Err(refusal) => return refused(refusal, None),
        };
        match self.take(&message, verdict, nonce) {
            Ok(done) => done.answer(),
            Err(refusal) => refused(refusal, Some(error(&message, refusal, nonce))),
        }
    }

    /// From row 6 on.
    fn take(
        &mut self,
        message: &Incoming,
        verdict: Verdict,
        nonce: FreshNonce,
    ) -> Result<Done, Refusal> {
        message.check_protected()?;
        let Verdict::Good(board) = verdict else {
            return Err(refusal(7));
        };
        match message.kind {
            CERT_CONF => self.confirm(message, board, nonce),
            kind if is_request(kind) => self.open(message, board),
            _ => Err(refusal(8)),
        }
    }

    /// "Opening: lowest free place becomes Asked for the board the verdict
    /// names."
    fn open(&mut self, message: &Incoming, board: Board) -> Result<Done, Refusal> {
        refuse_if(message.recip_nonce.is_some(), 9)?;
        refuse_if(self.find(message.id).is_some(), 10)?;
        let slot = self.free_slot().ok_or(refusal(11))?;
        if message.kind != P10CR {
            message.check_one_entry(message.kind)?;
        }
        self.transactions[slot] = Transaction {
            id: message.id,
            board,
            kind: message.kind,
            taken: message.sender_nonce,
            state: TransactionState::Asked,
            ..Transaction::default()
        };
        Ok(Done {
            outcome: Outcome::Done,
            slot,
            outgoing: None,
        })
    }

    /// A certConf: moves a transaction at Granted, and is answered once more
    /// where it moved it before.
    fn confirm(
        &mut self,
        message: &Incoming,
        board: Board,
        nonce: FreshNonce,
    ) -> Result<Done, Refusal> {
        let slot = self.find(message.id).ok_or(refusal(12))?;
        let transaction = &mut self.transactions[slot];
        let status = message.status.unwrap_or(ACCEPTED);
        refuse_if(board != transaction.board, 13)?;
        let answers = sent(transaction).is_some_and(|sent| message.answers(sent));
        refuse_if(!answers, 14)?;
        message.check_one_entry(transaction.kind)?;
        refuse_if(message.hash_alg && message.version == 2, 17)?;
        refuse_if(status != ACCEPTED && status != REJECTION, 18)?;
        let names = hash(transaction).is_some_and(|hash| message.cert_hash == hash.0);
        refuse_if(!names, 19)?;
        let settled = match status {
            ACCEPTED => TransactionState::Confirmed,
            _ => TransactionState::Declined,
        };
        let outcome = if transaction.state == TransactionState::Granted {
            transaction.state = settled;
            transaction.taken = message.sender_nonce;
            Outcome::Done
        } else if transaction.state == settled && transaction.taken == message.sender_nonce {
            Outcome::Again
        } else {
            return Err(wrong_state(transaction.state));
        };
        Ok(Done {
            outcome,
            slot,
            outgoing: Some(answer_to(message, PKICONF, nonce)),
        })
    }

    /// Asked to Granted, and the response with the certificate.
    pub fn issue(
        &mut self,
        id: TransactionId,
        nonce: FreshNonce,
        hash: CertHash,
    ) -> RegistrarAnswer {
        self.host_step(id, &[TransactionState::Asked], |transaction| {
            transaction.state = TransactionState::Granted;
            transaction.hash = hash;
            Some(respond(transaction, nonce, ACCEPTED))
        })
    }

    /// Asked to Refused, and the response that says so.
    pub fn refuse(&mut self, id: TransactionId, nonce: FreshNonce) -> RegistrarAnswer {
        self.host_step(id, &[TransactionState::Asked], |transaction| {
            transaction.state = TransactionState::Refused;
            Some(respond(transaction, nonce, REJECTION))
        })
    }

    /// Granted to Lapsed.
    pub fn lapse(&mut self, id: TransactionId) -> RegistrarAnswer {
        self.host_step(id, &[TransactionState::Granted], |transaction| {
            transaction.state = TransactionState::Lapsed;
            None
        })
    }

    /// To free, as in the empty table.
    pub fn close(&mut self, id: TransactionId) -> RegistrarAnswer {
        let over = [
            TransactionState::Confirmed,
            TransactionState::Declined,
            TransactionState::Refused,
            TransactionState::Lapsed,
        ];
        self.host_step(id, &over, |transaction| {
            *transaction = Transaction::default();
            None
        })
    }

    /// Rows 30 and 31, then the step.
    fn host_step(
        &mut self,
        id: TransactionId,
        from: &[TransactionState],
        step: impl FnOnce(&mut Transaction) -> Option<Outgoing>,
    ) -> RegistrarAnswer {
        let Some(slot) = self.find(id) else {
            return refused(refusal(30), None);
        };
        let transaction = &mut self.transactions[slot];
        if !from.contains(&transaction.state) {
            return refused(refusal(31), None);
        }
        Done {
            outcome: Outcome::Done,
            slot,
            outgoing: step(transaction),
        }
        .answer()
    }

    /// The slots in use and what they hold.
    pub fn transactions(&self) -> impl Iterator<Item = (Slot, Transaction)> + '_ {
        self.transactions
            .iter()
            .enumerate()
            .filter(|(_, transaction)| transaction.state != TransactionState::Free)
            .map(|(slot, transaction)| (Slot(slot), *transaction))
    }

    /// By the id alone; "a free place holds no id".
    fn find(&self, id: TransactionId) -> Option<usize> {
        self.transactions
            .iter()
            .position(|other| other.state != TransactionState::Free && other.id == id)
    }

    fn free_slot(&self) -> Option<usize> {
        self.transactions
            .iter()
            .position(|transaction| transaction.state == TransactionState::Free)
    }
}

impl Done {
    fn answer(self) -> RegistrarAnswer {
        RegistrarAnswer {
            outcome: self.outcome,
            slot: Some(Slot(self.slot)),
            outgoing: self.outgoing,
        }
    }
}

fn refused(refusal: Refusal, outgoing: Option<Outgoing>) -> RegistrarAnswer {
    RegistrarAnswer {
        outcome: Outcome::Refused(refusal),
        slot: None,
        outgoing,
    }
}

/// The nonce of the response, where one was sent. The bytes alone do not say:
/// the host may hand in zeros.
fn sent(transaction: &Transaction) -> Option<Nonce> {
    match transaction.state {
        TransactionState::Free | TransactionState::Asked => None,
        _ => Some(transaction.sent),
    }
}

/// The certificate's hash, where one was issued.
fn hash(transaction: &Transaction) -> Option<CertHash> {
    match transaction.state {
        TransactionState::Free | TransactionState::Asked | TransactionState::Refused => None,
        _ => Some(transaction.hash),
    }
}

/// Row 20: "11 if Confirmed, else 2".
fn wrong_state(state: TransactionState) -> Refusal {
    let bit = match state {
        TransactionState::Confirmed => 11,
        _ => 2,
    };
    Refusal {
        bit: Some(bit),
        ..refusal(20)
    }
}

/// The ip, cp or kup to a transaction's request.
fn respond(transaction: &mut Transaction, nonce: FreshNonce, status: i32) -> Outgoing {
    let kind = response_to(transaction.kind);
    let response = Outgoing {
        status: Some(status as u32),
        number: Some(request_number(transaction.kind)),
        ..plain(kind, transaction.id, nonce, Some(transaction.taken))
    };
    transaction.sent = response.sender_nonce;
    response
}

/// "Every answer carries the id and, as recipNonce, the senderNonce of the
/// message answered."
fn answer_to(message: &Incoming, kind: u8, nonce: FreshNonce) -> Outgoing {
    plain(kind, message.id, nonce, Some(message.sender_nonce))
}

/// "For numbers 6 up in message steps the desk also issues an error order with
/// status 2 and that bit."
fn error(message: &Incoming, refusal: Refusal, nonce: FreshNonce) -> Outgoing {
    Outgoing {
        status: Some(REJECTION as u32),
        failure: refusal.bit,
        ..answer_to(message, ERROR, nonce)
    }
}
