//! A registrar and its boards, and the calls of a list on them. Each call here
//! asserts the whole answer and the state after it; what it returns is the
//! message that was sent, for the line to do as it likes with.

use super::expected::{id_in, nonce_in, number_of, response};
use duskstall_host::testing::answers::{
    board_done, board_refused, error, plain, registrar_done, registrar_refused,
};
use duskstall_host::testing::ends::{EndEntityEnd, Ends, RegistrarEnd};
use duskstall_host::testing::exchange::Parts;
use duskstall_host::testing::writing::written;
use duskstall_host::{
    Board, CertHash, Decision, EndEntityAnswer, EnrolmentState, FreshNonce, Outcome, Outgoing,
    RegistrarAnswer, TransactionId, TransactionState, Verdict,
};

pub struct Scene<E: Ends> {
    registrar: E::Registrar,
    boards: Vec<E::EndEntity>,
    /// How many nonces were drawn: no two are the same.
    drawn: u128,
    /// What the ends sent, as the library wrote it.
    sent: Vec<(Parts, Vec<u8>)>,
}

/// The id X with this number.
pub fn id(number: u8) -> TransactionId {
    TransactionId([number; 16])
}

pub fn hash(number: u8) -> CertHash {
    CertHash([number; 32])
}

/// A good verdict for the board with this number.
pub fn good(board: usize) -> Verdict {
    Verdict::Good(Board(board as u16))
}

/// A copy of a message in which the line has changed something.
pub fn changed(parts: &Parts, change: impl FnOnce(&mut Parts)) -> Parts {
    let mut copy = parts.clone();
    change(&mut copy);
    copy
}

impl<E: Ends> Scene<E> {
    pub fn new() -> Self {
        Scene {
            registrar: E::Registrar::empty(),
            boards: Vec::new(),
            drawn: 0,
            sent: Vec::new(),
        }
    }

    /// An end sends this, and the line gets it by its parts.
    fn sends(&mut self, outgoing: &Outgoing) -> Parts {
        let parts = Parts::of(outgoing);
        self.sent.push((parts.clone(), written(outgoing)));
        parts
    }

    /// A message as it comes: as it was written, or encoded anew where the line
    /// has changed something.
    fn bytes(&self, message: &Parts) -> Vec<u8> {
        let as_sent = self.sent.iter().find(|(parts, _)| parts == message);
        as_sent.map_or_else(|| message.encode(), |(_, bytes)| bytes.clone())
    }

    fn draw(&mut self) -> FreshNonce {
        self.drawn += 1;
        FreshNonce((u128::MAX - self.drawn).to_be_bytes())
    }

    // At the boards.

    /// The next board starts an ir with this id.
    pub fn start(&mut self, id: TransactionId) -> Parts {
        self.start_by(0, id)
    }

    /// The next board starts with a request of this kind.
    pub fn start_by(&mut self, kind: u8, id: TransactionId) -> Parts {
        let nonce = self.draw();
        self.start_with(kind, id, nonce)
    }

    pub fn start_with(&mut self, kind: u8, id: TransactionId, nonce: FreshNonce) -> Parts {
        let started = E::EndEntity::start(kind, id, nonce);
        let (board, request) = started.expect("the kind is one of a request");
        let expected = Outgoing {
            recip_nonce: None,
            ..plain(kind, id, nonce, nonce.into())
        };
        assert_eq!(request, expected);
        self.boards.push(board);
        self.board_says(self.boards.len() - 1, EnrolmentState::Asked);
        self.sends(&request)
    }

    /// A board decides on a response and sends its certConf.
    pub fn decide(
        &mut self,
        board: usize,
        response: &Parts,
        accept: bool,
        hash: CertHash,
    ) -> Parts {
        let nonce = self.draw();
        self.decide_with(board, response, Decision { accept, hash }, nonce)
    }

    pub fn decide_with(
        &mut self,
        board: usize,
        response: &Parts,
        decision: Decision,
        nonce: FreshNonce,
    ) -> Parts {
        let before = self.boards[board].enrolment();
        let bytes = self.bytes(response);
        let answer = self.boards[board].message(&bytes, true, decision, nonce);
        let sent = Outgoing {
            status: Some(if decision.accept { 0 } else { 2 }),
            hash: Some(decision.hash),
            number: Some(number_of(before.kind)),
            ..plain(24, before.id, nonce, nonce_in(&response.sender_nonce))
        };
        assert_eq!(answer, board_done(Some(sent)));
        let state = match decision.accept {
            true => EnrolmentState::Confirming,
            false => EnrolmentState::Declining,
        };
        self.board_says(board, state);
        self.sends(&sent)
    }

    /// A board takes a message that it does not answer.
    pub fn board_takes(&mut self, board: usize, message: &Parts, state: EnrolmentState) {
        let answer = self.hand(board, message);
        assert_eq!(answer, board_done(None));
        self.board_says(board, state);
    }

    /// A board refuses a message with a good verdict, and its record stays.
    pub fn board_refuses(&mut self, board: usize, message: &Parts, number: u8) {
        let before = self.boards[board].clone();
        let answer = self.hand(board, message);
        let bit = match number {
            14 => Some(13),
            21 => None,
            _ => Some(2),
        };
        assert_eq!(answer, board_refused(number, bit));
        assert!(self.boards[board] == before);
    }

    /// A board cannot read a message, and its record stays.
    pub fn board_cannot_read(&mut self, board: usize, message: &Parts) {
        let before = self.boards[board].clone();
        let answer = self.hand(board, message);
        assert_eq!(
            answer.outcome.refusal().map(|refusal| refusal.number),
            Some(2)
        );
        assert_eq!(answer.outgoing, None);
        assert!(self.boards[board] == before);
    }

    /// Hands a message over with a good verdict. The decision is one that the
    /// message must not use.
    fn hand(&mut self, board: usize, message: &Parts) -> EndEntityAnswer {
        let unused = Decision {
            accept: true,
            hash: hash(0xEE),
        };
        let nonce = self.draw();
        let bytes = self.bytes(message);
        self.boards[board].message(&bytes, true, unused, nonce)
    }

    pub fn time_out(&mut self, board: usize, state: EnrolmentState) {
        assert_eq!(self.boards[board].time_out(), board_done(None));
        self.board_says(board, state);
    }

    pub fn time_out_refused(&mut self, board: usize) {
        let before = self.boards[board].clone();
        assert_eq!(self.boards[board].time_out(), board_refused(31, None));
        assert!(self.boards[board] == before);
    }

    pub fn board_says(&self, board: usize, state: EnrolmentState) {
        assert_eq!(self.boards[board].enrolment().state, state);
    }

    // At the registrar.

    /// A request opens a transaction for a board, in this slot.
    pub fn opens(&mut self, request: &Parts, board: usize, slot: usize) {
        let answer = self.deliver(request, good(board));
        assert_eq!(answer, registrar_done(slot, None));
        let id = id_in(request);
        let (_, transaction) = self.registrar.find(id).expect("it was opened");
        assert_eq!(transaction.board, Board(board as u16));
        assert_eq!(transaction.kind, request.kind);
        assert_eq!(transaction.taken, nonce_in(&request.sender_nonce));
        self.registrar_says(id, TransactionState::Asked);
    }

    /// The host issues, and the response goes out.
    pub fn issue(&mut self, id: TransactionId, hash: CertHash) -> Parts {
        let nonce = self.draw();
        self.issue_with(id, nonce, hash)
    }

    pub fn issue_with(&mut self, id: TransactionId, nonce: FreshNonce, hash: CertHash) -> Parts {
        let (slot, before) = self.registrar.find(id).expect("it was opened");
        let sent = response(before.kind, id, nonce, before.taken, 0);
        let answer = self.registrar.issue(id, nonce, hash);
        assert_eq!(answer, registrar_done(slot.0, Some(sent)));
        let (_, after) = self.registrar.find(id).expect("it is there");
        assert_eq!((after.sent, after.hash), (nonce.into(), hash));
        self.registrar_says(id, TransactionState::Granted);
        self.sends(&sent)
    }

    /// The host refuses, and the response goes out.
    pub fn refuse(&mut self, id: TransactionId) -> Parts {
        let nonce = self.draw();
        let (slot, before) = self.registrar.find(id).expect("it was opened");
        let sent = response(before.kind, id, nonce, before.taken, 2);
        let answer = self.registrar.refuse(id, nonce);
        assert_eq!(answer, registrar_done(slot.0, Some(sent)));
        self.registrar_says(id, TransactionState::Refused);
        self.sends(&sent)
    }

    pub fn lapse(&mut self, id: TransactionId) {
        let (slot, _) = self.registrar.find(id).expect("it was opened");
        assert_eq!(self.registrar.lapse(id), registrar_done(slot.0, None));
        self.registrar_says(id, TransactionState::Lapsed);
    }

    pub fn close(&mut self, id: TransactionId) {
        let (slot, _) = self.registrar.find(id).expect("it was opened");
        assert_eq!(self.registrar.close(id), registrar_done(slot.0, None));
        assert_eq!(self.registrar.find(id), None);
    }

    pub fn close_refused(&mut self, id: TransactionId, number: u8) {
        let before = self.registrar.clone();
        let answer = self.registrar.close(id);
        assert_eq!(answer, registrar_refused(number, None, None));
        assert!(self.registrar == before);
    }

    /// Closing leaves nothing behind.
    pub fn table_is_empty(&self) {
        assert!(self.registrar == E::Registrar::empty());
    }

    /// A certConf moves its transaction, and the pkiconf goes out.
    pub fn settles(&mut self, cert_conf: &Parts, board: usize, state: TransactionState) -> Parts {
        let pkiconf = self.acknowledges(cert_conf, board, Outcome::Done);
        let id = id_in(cert_conf);
        let (_, after) = self.registrar.find(id).expect("it is there");
        assert_eq!(after.taken, nonce_in(&cert_conf.sender_nonce));
        self.registrar_says(id, state);
        pkiconf
    }

    /// A certConf is answered again, and the table stays.
    pub fn again(&mut self, cert_conf: &Parts, board: usize) -> Parts {
        let before = self.registrar.clone();
        let pkiconf = self.acknowledges(cert_conf, board, Outcome::Again);
        assert!(self.registrar == before);
        pkiconf
    }

    fn acknowledges(&mut self, cert_conf: &Parts, board: usize, outcome: Outcome) -> Parts {
        let id = id_in(cert_conf);
        let (slot, _) = self.registrar.find(id).expect("it was opened");
        let nonce = self.draw();
        let bytes = self.bytes(cert_conf);
        let answer = self.registrar.message(&bytes, good(board), nonce);
        let sent = plain(19, id, nonce, nonce_in(&cert_conf.sender_nonce));
        let expected = RegistrarAnswer {
            outcome,
            ..registrar_done(slot.0, Some(sent))
        };
        assert_eq!(answer, expected);
        self.sends(&sent)
    }

    /// A message is refused with an error message, and the table stays.
    pub fn refuses(&mut self, message: &Parts, verdict: Verdict, number: u8, bit: u8) -> Parts {
        let before = self.registrar.clone();
        let nonce = self.draw();
        let bytes = self.bytes(message);
        let answer = self.registrar.message(&bytes, verdict, nonce);
        let answered = nonce_in(&message.sender_nonce);
        let sent = error(id_in(message), nonce, answered, bit);
        assert_eq!(answer, registrar_refused(number, Some(bit), Some(sent)));
        assert!(self.registrar == before);
        self.sends(&sent)
    }

    /// A message cannot be read, so no error message can answer it, and the table
    /// stays.
    pub fn cannot_read(&mut self, message: &Parts) {
        let before = self.registrar.clone();
        let answer = self.deliver(message, good(0));
        assert_eq!(
            answer.outcome.refusal().map(|refusal| refusal.number),
            Some(2)
        );
        assert_eq!(answer.outgoing, None);
        assert!(self.registrar == before);
    }

    fn deliver(&mut self, message: &Parts, verdict: Verdict) -> RegistrarAnswer {
        let nonce = self.draw();
        let bytes = self.bytes(message);
        self.registrar.message(&bytes, verdict, nonce)
    }

    pub fn registrar_says(&self, id: TransactionId, state: TransactionState) {
        let found = self.registrar.find(id);
        assert_eq!(found.map(|(_, found)| found.state), Some(state));
    }
}
