//! One registrar, its boards with their enrolments, and every call on them,
//! with the history and the coverage kept beside.

use super::coverage::Coverage;
use super::history::{History, Sender};
use duskstall_host::{
    independent, Board, CertHash, Decision, EndEntity, EnrolmentState, FreshNonce, Nonce, Outcome,
    Outgoing, Refusal, Registrar, RegistrarAnswer, Slot, Transaction, TransactionId,
    TransactionState, Verdict,
};

/// One enrolment of a board.
pub struct BoardEnrolment {
    pub board: Board,
    pub end: EndEntity,
    /// The response nonce that its certConf carried as recipNonce.
    pub answered: Option<Nonce>,
}

pub struct World {
    pub registrar: Registrar,
    pub enrolments: Vec<BoardEnrolment>,
    pub history: History,
    /// How many nonces were drawn, and how many ids. A value that is handed in
    /// and not used is not drawn, and is handed in again.
    pub nonces: u128,
    pub ids: u128,
}

impl World {
    pub fn new() -> Self {
        World {
            registrar: Registrar::new(),
            enrolments: Vec::new(),
            history: History::default(),
            nonces: 0,
            ids: 0,
        }
    }

    fn nonce(&self) -> FreshNonce {
        FreshNonce(self.nonces.to_be_bytes())
    }

    fn note_sent(&mut self, sender: Sender, outgoing: Option<Outgoing>) {
        if let Some(outgoing) = outgoing {
            assert_eq!(outgoing.sender_nonce, self.nonce().into());
            self.history.note_sent(sender, outgoing);
            self.nonces += 1;
        }
    }

    // The registrar's calls.

    pub fn registrar_gets(&mut self, message: &[u8], verdict: Verdict, coverage: &mut Coverage) {
        let what = match independent::read(message).map(|reading| reading.kind) {
            Err(_) => "unread",
            Ok(0 | 2 | 4 | 7) => "request",
            Ok(24) => "certConf",
            Ok(_) => "other kind",
        };
        let nonce = self.nonce();
        let outcome = self.at_registrar(what, coverage, |registrar| {
            registrar.message(message, verdict, nonce)
        });
        coverage.note_number(what, outcome, message);
    }

    pub fn issue(&mut self, id: TransactionId, hash: CertHash, coverage: &mut Coverage) {
        let nonce = self.nonce();
        self.at_registrar("issue", coverage, |registrar| {
            registrar.issue(id, nonce, hash)
        });
    }

    pub fn refuse(&mut self, id: TransactionId, coverage: &mut Coverage) {
        let nonce = self.nonce();
        self.at_registrar("refuse", coverage, |registrar| registrar.refuse(id, nonce));
    }

    pub fn lapse(&mut self, id: TransactionId, coverage: &mut Coverage) {
        self.at_registrar("lapse", coverage, |registrar| registrar.lapse(id));
    }

    pub fn close(&mut self, id: TransactionId, coverage: &mut Coverage) {
        let outcome = self.at_registrar("close", coverage, |registrar| registrar.close(id));
        if outcome == Outcome::Done {
            self.history.note_close(id);
        }
    }

    /// Runs a call. A refused one changes nothing, every other one only the
    /// slot it names.
    fn at_registrar(
        &mut self,
        what: &str,
        coverage: &mut Coverage,
        call: impl FnOnce(&mut Registrar) -> RegistrarAnswer,
    ) -> Outcome {
        self.history.calls += 1;
        let before: Vec<_> = self.registrar.transactions().collect();
        let answer = call(&mut self.registrar);
        let after: Vec<_> = self.registrar.transactions().collect();
        self.note_sent(Sender::Registrar, answer.outgoing);
        let slot = answer.slot;
        assert!(others(&before, slot).eq(others(&after, slot)));
        let (from, to) = (record_at(&before, slot), record_at(&after, slot));
        // A free slot has no kind: before a request, and after a close.
        let kind = from.kind.max(to.kind);
        let (from, to) = (from.state, to.state);
        match answer.outcome {
            Outcome::Done => coverage.note_move(kind, format!("{what}: {from:?} to {to:?}")),
            Outcome::Again => {
                assert_eq!(before, after);
                coverage.note_move(kind, format!("{what}: again at {to:?}"));
            }
            Outcome::Refused(refusal) => coverage.note(refused(what, refusal, true)),
        }
        for (_, transaction) in after {
            if transaction.state == TransactionState::Confirmed {
                self.history.note_confirmed(transaction.id);
            }
        }
        answer.outcome
    }

    // The boards' calls.

    pub fn start(&mut self, board: Board, kind: u8, coverage: &mut Coverage) {
        self.history.calls += 1;
        let id = TransactionId(self.ids.to_be_bytes());
        match EndEntity::start(kind, id, self.nonce()) {
            Ok((end, request)) => {
                self.ids += 1;
                self.history.note_start(id);
                self.note_sent(Sender::Board(board), Some(request));
                let state = end.enrolment().state;
                coverage.note_move(kind, format!("board start: to {state:?}"));
                self.enrolments.push(BoardEnrolment {
                    board,
                    end,
                    answered: None,
                });
            }
            Err(refusal) => coverage.note(refused("board start", refusal, false)),
        }
    }

    pub fn end_entity_gets(
        &mut self,
        number: usize,
        message: &[u8],
        good: bool,
        decision: Decision,
        coverage: &mut Coverage,
    ) {
        self.history.calls += 1;
        let nonce = self.nonce();
        let enrolled = &mut self.enrolments[number];
        let before = enrolled.end.enrolment();
        let answer = enrolled.end.message(message, good, decision, nonce);
        let after = enrolled.end.enrolment();
        if let Some(cert_conf) = answer.outgoing {
            enrolled.answered = cert_conf.recip_nonce;
        }
        let reading = independent::read(message);
        let what = at_board(reading.map(|reading| reading.kind).ok(), before.kind);
        coverage.note_number(what, answer.outcome, message);
        match (answer.outcome, reading) {
            (Outcome::Refused(refusal), _) => {
                assert!(before == after && answer.outgoing.is_none());
                coverage.note(refused(what, refusal, false));
            }
            (_, Ok(reading)) if what == "board response" => {
                let what = format!("{what} {}", reading.status);
                coverage.note_move(before.kind, moved(&what, before.state, after.state));
            }
            _ => coverage.note_move(before.kind, moved(what, before.state, after.state)),
        }
        let sender = Sender::Board(enrolled.board);
        self.note_sent(sender, answer.outgoing);
    }

    pub fn time_out(&mut self, number: usize, coverage: &mut Coverage) {
        self.history.calls += 1;
        let enrolled = &mut self.enrolments[number];
        let before = enrolled.end.enrolment();
        let answer = enrolled.end.time_out();
        let after = enrolled.end.enrolment();
        assert_eq!(answer.outgoing, None);
        let what = "board time out";
        match answer.outcome {
            Outcome::Refused(refusal) => {
                assert_eq!(before, after);
                coverage.note(refused(what, refusal, false));
            }
            _ => coverage.note_move(before.kind, moved(what, before.state, after.state)),
        }
    }
}

/// What a message of this kind is to an enrolment of that kind.
fn at_board(kind: Option<u8>, request: u8) -> &'static str {
    match (kind, request) {
        (None, _) => "board unread",
        (Some(19), _) => "board pkiconf",
        (Some(23), _) => "board error",
        (Some(1), 0) | (Some(3), 2 | 4) | (Some(8), 7) => "board response",
        _ => "board other kind",
    }
}

fn moved(what: &str, from: EnrolmentState, to: EnrolmentState) -> String {
    format!("{what}: {from:?} to {to:?}")
}

/// Row 20 has two bits at the registrar.
fn refused(what: &str, refusal: Refusal, at_registrar: bool) -> String {
    match refusal {
        Refusal {
            number: 20,
            bit: Some(bit),
            ..
        } if at_registrar => format!("{what}: refused 20 bit {bit}"),
        _ => format!("{what}: refused {}", refusal.number),
    }
}

type Slots = [(Slot, Transaction)];

/// The slots in use but for this one.
fn others(slots: &Slots, but: Option<Slot>) -> impl Iterator<Item = &(Slot, Transaction)> {
    slots.iter().filter(move |(slot, _)| Some(*slot) != but)
}

/// What this slot holds; a free one holds nothing.
fn record_at(slots: &Slots, at: Option<Slot>) -> Transaction {
    let found = slots.iter().find(|(slot, _)| Some(*slot) == at);
    found.map_or(Transaction::default(), |(_, transaction)| *transaction)
}
