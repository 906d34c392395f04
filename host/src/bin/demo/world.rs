//! The two ends and their hosts: the registrar, three boards, and what their
//! hosts do beside the library's calls.

use crate::claims::Claims;
use crate::line::Line;
use crate::show;
use duskstall_host::testing::random::Random;
use duskstall_host::testing::writing::written;
use duskstall_host::{
    Board, CertHash, Decision, EndEntity, EnrolmentState, FreshNonce, Outgoing, Registrar,
    TransactionId, TransactionState, Verdict,
};
use std::collections::BTreeMap;
use std::fmt;

/// The request of each board, and whether its host accepts the certificate.
const BOARDS: [(u8, bool); 3] = [(0, true), (4, true), (7, false)];

/// How many steps of the line a board's host waits, and how often it sends its
/// last message again before it gives up.
const PATIENCE: usize = 12;
const TRIES: usize = 1;

/// The line is cut after so many steps.
const LONGEST: usize = 400;

/// An end: the registrar, or a board by its place among the three.
#[derive(Clone, Copy, Debug, PartialEq, Eq)]
pub enum End {
    Registrar,
    Board(usize),
}

impl fmt::Display for End {
    fn fmt(&self, to: &mut fmt::Formatter) -> fmt::Result {
        match self {
            End::Registrar => write!(to, "registrar"),
            End::Board(place) => write!(to, "board {}", place + 1),
        }
    }
}

/// A message on the line.
#[derive(Clone, Debug)]
pub struct Packet {
    pub from: End,
    pub to: End,
    /// What the sender's end gave to be sent.
    pub outgoing: Outgoing,
    pub bytes: Vec<u8>,
}

/// A board with one enrolment.
pub struct BoardHost {
    pub number: Board,
    pub end: EndEntity,
    accepts: bool,
    /// What it sent last, and how long ago and how often it was sent again.
    last: Packet,
    quiet: usize,
    tries: usize,
}

impl BoardHost {
    fn is_waiting(&self) -> bool {
        matches!(
            self.end.enrolment().state,
            EnrolmentState::Asked | EnrolmentState::Confirming | EnrolmentState::Declining
        )
    }
}

pub struct World {
    pub registrar: Registrar,
    pub boards: Vec<BoardHost>,
    pub random: Random,
    pub claims: Claims,
    pub calls: usize,
    /// What the ends sent. This stands for their keys: protection is good for
    /// exactly the bytes that the sender protected.
    protected: Vec<(End, Vec<u8>)>,
    /// The hash of the certificate that was issued for each transaction.
    certificates: BTreeMap<TransactionId, CertHash>,
    steps: usize,
}

impl World {
    pub fn new(seed: u64) -> World {
        World {
            registrar: Registrar::new(),
            boards: Vec::new(),
            random: Random::new(seed),
            claims: Claims::default(),
            calls: 0,
            protected: Vec::new(),
            certificates: BTreeMap::new(),
            steps: 0,
        }
    }

    /// Whether a board waits or the line has something left.
    pub fn is_busy(&self, line: &Line) -> bool {
        let waiting = self.boards.iter().any(BoardHost::is_waiting);
        self.steps < LONGEST && (waiting || !line.is_empty())
    }

    fn draw<const N: usize>(&mut self) -> [u8; N] {
        std::array::from_fn(|_| self.random.byte())
    }

    /// Has the library write what an end gave to be sent, and protects it.
    fn packet(&mut self, from: End, to: End, outgoing: Outgoing) -> Packet {
        let bytes = written(&outgoing);
        self.protected.push((from, bytes.clone()));
        Packet {
            from,
            to,
            outgoing,
            bytes,
        }
    }

    /// Who protected these bytes.
    fn verify(&self, bytes: &[u8]) -> Option<End> {
        let found = self.protected.iter().find(|(_, sent)| sent == bytes);
        found.map(|(from, _)| *from)
    }

    fn called(&mut self) {
        self.calls += 1;
        self.claims.check(&self.registrar, &self.boards);
    }

    /// Each board starts its enrolment.
    pub fn start_all(&mut self, line: &mut Line) {
        for (place, (kind, accepts)) in BOARDS.into_iter().enumerate() {
            let (id, nonce) = (TransactionId(self.draw()), FreshNonce(self.draw()));
            let (end, request) = EndEntity::start(kind, id, nonce).expect("a kind of request");
            let from = End::Board(place);
            let packet = self.packet(from, End::Registrar, request);
            show::sends(from, "starts", &packet);
            self.boards.push(BoardHost {
                number: Board(place as u16 + 1),
                end,
                accepts,
                last: packet.clone(),
                quiet: 0,
                tries: 0,
            });
            line.send(packet);
            self.called();
        }
    }

    /// The line hands a message to an end.
    pub fn hand_over(&mut self, how: &str, packet: Packet, line: &mut Line) {
        show::handed(how, &packet);
        match packet.to {
            End::Registrar => self.registrar_gets(&packet, line),
            End::Board(place) => self.board_gets(place, &packet, line),
        }
    }

    fn state_of(&self, id: TransactionId) -> TransactionState {
        let found = self.registrar.find(id);
        found.map_or(TransactionState::Free, |(_, found)| found.state)
    }

    fn registrar_gets(&mut self, packet: &Packet, line: &mut Line) {
        let verdict = match self.verify(&packet.bytes) {
            Some(End::Board(place)) => Verdict::Good(self.boards[place].number),
            _ => Verdict::Bad,
        };
        let nonce = FreshNonce(self.draw());
        let id = packet.outgoing.id;
        let before = self.state_of(id);
        let answer = self.registrar.message(&packet.bytes, verdict, nonce);
        let after = self.state_of(id);
        self.called();
        // An error would copy id and nonce of a message that nobody protected.
        let outgoing = answer.outgoing.filter(|_| verdict != Verdict::Bad);
        show::answer(packet.to, answer.outcome, before, after, outgoing);
        if let Some(outgoing) = outgoing {
            let packet = self.packet(End::Registrar, packet.from, outgoing);
            line.send(packet);
        }
    }

    fn board_gets(&mut self, place: usize, packet: &Packet, line: &mut Line) {
        let good = self.verify(&packet.bytes) == Some(End::Registrar);
        let nonce = FreshNonce(self.draw());
        let board = &mut self.boards[place];
        let before = board.end.enrolment();
        // The host hashes the certificate in the message, which is the issued
        // one where the protection is good.
        let hash = self.certificates.get(&before.id).copied();
        let decision = Decision {
            accept: board.accepts,
            hash: hash.unwrap_or_default(),
        };
        let answer = board.end.message(&packet.bytes, good, decision, nonce);
        let after = board.end.enrolment();
        self.called();
        show::answer(
            packet.to,
            answer.outcome,
            before.state,
            after.state,
            answer.outgoing,
        );
        if let Some(outgoing) = answer.outgoing {
            let packet = self.packet(packet.to, End::Registrar, outgoing);
            let board = &mut self.boards[place];
            (board.last, board.quiet, board.tries) = (packet.clone(), 0, 0);
            line.send(packet);
        }
    }

    /// After each step of the line the hosts do what is due.
    pub fn hosts_act(&mut self, line: &mut Line) {
        self.steps += 1;
        for id in self.at(TransactionState::Asked) {
            self.issue(id, line);
        }
        for place in 0..self.boards.len() {
            let board = &mut self.boards[place];
            board.quiet += 1;
            if !board.is_waiting() || board.quiet < PATIENCE {
                continue;
            }
            board.quiet = 0;
            board.tries += 1;
            if board.tries <= TRIES {
                show::sends(
                    End::Board(place),
                    "waited long and sends again",
                    &board.last,
                );
                line.send(board.last.clone());
            } else {
                self.time_out(place);
            }
        }
    }

    /// The ids of the transactions in this state.
    fn at(&self, state: TransactionState) -> Vec<TransactionId> {
        let all = self.registrar.transactions();
        all.filter(|(_, found)| found.state == state)
            .map(|(_, found)| found.id)
            .collect()
    }

    fn issue(&mut self, id: TransactionId, line: &mut Line) {
        let (nonce, hash) = (FreshNonce(self.draw()), CertHash(self.draw()));
        let answer = self.registrar.issue(id, nonce, hash);
        self.certificates.insert(id, hash);
        self.called();
        let (Some((_, found)), Some(response)) = (self.registrar.find(id), answer.outgoing) else {
            return;
        };
        let to = End::Board(usize::from(found.board.0) - 1);
        let packet = self.packet(End::Registrar, to, response);
        show::sends(
            End::Registrar,
            "issues a certificate, Asked -> Granted",
            &packet,
        );
        line.send(packet);
    }

    fn time_out(&mut self, place: usize) {
        let board = &mut self.boards[place];
        let before = board.end.enrolment().state;
        let answer = board.end.time_out();
        let after = board.end.enrolment().state;
        self.called();
        show::host(End::Board(place), "gives up", answer.outcome, before, after);
    }

    /// The registrar's host waits no longer for confirmations.
    pub fn finish(&mut self) {
        for id in self.at(TransactionState::Granted) {
            let answer = self.registrar.lapse(id);
            self.called();
            let after = self.state_of(id);
            let before = TransactionState::Granted;
            show::host(End::Registrar, "gives up", answer.outcome, before, after);
        }
    }
}
