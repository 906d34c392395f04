//! What the test itself keeps of a list of calls: who issued what, what was
//! drawn, sent, closed and ever confirmed. None of it is asked of the ends.

use duskstall_host::{independent, Board, Nonce, Outgoing, Reading, Span, TransactionId};
use std::collections::{HashMap, HashSet};

/// Who sent a message.
#[derive(Clone, Copy, Debug, PartialEq, Eq)]
pub enum Sender {
    Registrar,
    Board(Board),
}

/// A message that an end gave to be sent, and the number of that call.
#[derive(Clone, Copy, Debug)]
pub struct Sent {
    pub sender: Sender,
    pub outgoing: Outgoing,
    call: usize,
}

#[derive(Default)]
pub struct History {
    /// How many calls there were.
    pub calls: usize,
    /// All that was sent, in order.
    pub sent: Vec<Sent>,
    /// The same by senderNonce, of which no two are the same.
    by_nonce: HashMap<Nonce, Sent>,
    /// The ids that starts took.
    started: HashSet<TransactionId>,
    /// The calls that closed a transaction with this id.
    closed: HashMap<TransactionId, Vec<usize>>,
    /// The ids that the registrar ever had at Confirmed.
    confirmed: HashSet<TransactionId>,
}

impl History {
    /// A start took this id.
    pub fn note_start(&mut self, id: TransactionId) {
        assert!(self.started.insert(id), "the id {id:?} is drawn twice");
    }

    /// A call gave this message to be sent.
    pub fn note_sent(&mut self, sender: Sender, outgoing: Outgoing) {
        let sent = Sent {
            sender,
            outgoing,
            call: self.calls,
        };
        let nonce = outgoing.sender_nonce;
        let before = self.by_nonce.insert(nonce, sent);
        assert!(before.is_none(), "the nonce {nonce:?} is drawn twice");
        self.sent.push(sent);
    }

    pub fn note_close(&mut self, id: TransactionId) {
        self.closed.entry(id).or_default().push(self.calls);
    }

    pub fn note_confirmed(&mut self, id: TransactionId) {
        self.confirmed.insert(id);
    }

    pub fn was_confirmed(&self, id: TransactionId) -> bool {
        self.confirmed.contains(&id)
    }

    /// Whether the transaction whose response carried this nonce is closed: by
    /// the first close of its id after the call that sent the nonce.
    pub fn is_closed(&self, id: TransactionId, response: Nonce) -> bool {
        let Some(sent) = self.by_nonce.get(&response) else {
            return false;
        };
        let closed = self.closed.get(&id);
        closed.is_some_and(|calls| calls.iter().any(|call| *call > sent.call))
    }

    /// Who issued a message, if anybody did. `None` where it does not read:
    /// the premise says nothing of such a message.
    pub fn issuer(&self, message: &[u8]) -> Option<Option<Sender>> {
        let reading = independent::read(message).ok()?;
        let nonce = sixteen(message, reading.sender_nonce).map(Nonce);
        let sent = nonce.and_then(|nonce| self.by_nonce.get(&nonce));
        Some(
            sent.filter(|sent| carries(message, &reading, &sent.outgoing))
                .map(|sent| sent.sender),
        )
    }
}

/// "The same kind, id and nonces, the same status where the order has one (in a
/// certConf none counts as 0), and in a certConf the same hash." A message of
/// several entries has no one status and no one hash to compare.
fn carries(message: &[u8], reading: &Reading, outgoing: &Outgoing) -> bool {
    let recip_nonce = match outgoing.recip_nonce {
        Some(nonce) => sixteen(message, reading.recip_nonce) == Some(nonce.0),
        None => reading.recip_nonce == Span::default(),
    };
    let has_contents = reading.entries == 1 || reading.kind == 23;
    let status = outgoing
        .status
        .is_none_or(|status| !has_contents || status == reading.status);
    let hash = outgoing
        .hash
        .is_none_or(|hash| !has_contents || part(message, reading.cert_hash) == hash.0);
    reading.kind == outgoing.kind
        && sixteen(message, reading.transaction_id) == Some(outgoing.id.0)
        && recip_nonce
        && status
        && hash
}

fn part(message: &[u8], span: Span) -> &[u8] {
    &message[span.start..][..span.len]
}

fn sixteen(message: &[u8], span: Span) -> Option<[u8; 16]> {
    part(message, span).try_into().ok()
}
