//! The states of both ends as plain data, and their bytes at the library's
//! boundary: fields in order, numbers big-endian.

use crate::ends::{Board, CertHash, Nonce, TransactionId};
use crate::limits::{HASH_BYTES, ID_BYTES, NONCE_BYTES, SLOTS};

/// The size of a packed transaction: id, board, kind, two nonces, hash and state.
pub const TRANSACTION_BYTES: usize =
    ID_BYTES + size_of::<u16>() + 1 + 2 * NONCE_BYTES + HASH_BYTES + 1;

/// The size of the packed table.
pub const TABLE_BYTES: usize = SLOTS * TRANSACTION_BYTES;

/// The size of a packed enrolment: id, kind, two nonces, hash and state.
pub const ENROLMENT_BYTES: usize = ID_BYTES + 1 + 2 * NONCE_BYTES + HASH_BYTES + 1;

/// Where a transaction of the registrar is.
#[derive(Clone, Copy, Debug, Default, PartialEq, Eq, PartialOrd, Ord)]
pub enum TransactionState {
    /// The slot holds no transaction.
    #[default]
    Free,
    /// The request was taken.
    Asked,
    /// The certificate was issued and its confirmation is awaited.
    Granted,
    Confirmed,
    Declined,
    /// The host refused the request.
    Refused,
    /// The host gave up waiting for the confirmation.
    Lapsed,
}

/// All of them, by the number they are packed as.
pub const TRANSACTION_STATES: [TransactionState; 7] = [
    TransactionState::Free,
    TransactionState::Asked,
    TransactionState::Granted,
    TransactionState::Confirmed,
    TransactionState::Declined,
    TransactionState::Refused,
    TransactionState::Lapsed,
];

/// A record of the registrar's table. Bytes that were never set are zero.
#[derive(Clone, Copy, Debug, Default, PartialEq, Eq)]
pub struct Transaction {
    pub id: TransactionId,
    pub board: Board,
    /// The kind of the request.
    pub kind: u8,
    /// The board's nonce that was taken last.
    pub taken: Nonce,
    /// The nonce of the response sent.
    pub sent: Nonce,
    pub hash: CertHash,
    pub state: TransactionState,
}

/// Where an enrolment of a board is.
#[derive(Clone, Copy, Debug, PartialEq, Eq, PartialOrd, Ord)]
pub enum EnrolmentState {
    /// The request was sent.
    Asked,
    /// The certificate was accepted and the pkiconf is awaited.
    Confirming,
    /// The certificate was turned down and the pkiconf is awaited.
    Declining,
    /// The registrar has acknowledged the acceptance.
    Sure,
    /// The registrar has acknowledged the rejection.
    Declined,
    /// No certificate, and nothing was confirmed.
    Failed,
    /// A confirmation was sent and its effect is unknown.
    Unsettled,
}

/// All of them, by the number they are packed as.
pub const ENROLMENT_STATES: [EnrolmentState; 7] = [
    EnrolmentState::Asked,
    EnrolmentState::Confirming,
    EnrolmentState::Declining,
    EnrolmentState::Sure,
    EnrolmentState::Declined,
    EnrolmentState::Failed,
    EnrolmentState::Unsettled,
];

/// A board's record of one enrolment.
#[derive(Clone, Copy, Debug, PartialEq, Eq)]
pub struct Enrolment {
    pub id: TransactionId,
    /// The kind of the request.
    pub kind: u8,
    /// The nonce sent last.
    pub last: Nonce,
    /// The senderNonce of the response that was answered by a certConf.
    pub taken: Nonce,
    /// The host's hash of the certificate in it.
    pub hash: CertHash,
    pub state: EnrolmentState,
}

impl Transaction {
    pub fn pack(&self) -> Vec<u8> {
        [
            &self.id.0[..],
            &self.board.0.to_be_bytes(),
            &[self.kind],
            &self.taken.0,
            &self.sent.0,
            &self.hash.0,
            &[self.state as u8],
        ]
        .concat()
    }

    /// The transaction in exactly these bytes, unless the last is no state.
    pub fn unpack(bytes: &[u8]) -> Option<Transaction> {
        let (id, rest) = bytes.split_first_chunk()?;
        let (board, rest) = rest.split_first_chunk()?;
        let (kind, rest) = rest.split_first()?;
        let (taken, rest) = rest.split_first_chunk()?;
        let (sent, rest) = rest.split_first_chunk()?;
        let (hash, rest) = rest.split_first_chunk()?;
        let [state] = rest else { return None };
        Some(Transaction {
            id: TransactionId(*id),
            board: Board(u16::from_be_bytes(*board)),
            kind: *kind,
            taken: Nonce(*taken),
            sent: Nonce(*sent),
            hash: CertHash(*hash),
            state: *TRANSACTION_STATES.get(usize::from(*state))?,
        })
    }
}

impl Enrolment {
    pub fn pack(&self) -> Vec<u8> {
        [
            &self.id.0[..],
            &[self.kind],
            &self.last.0,
            &self.taken.0,
            &self.hash.0,
            &[self.state as u8],
        ]
        .concat()
    }

    /// The enrolment in exactly these bytes, unless the last is no state.
    pub fn unpack(bytes: &[u8]) -> Option<Enrolment> {
        let (id, rest) = bytes.split_first_chunk()?;
        let (kind, rest) = rest.split_first()?;
        let (last, rest) = rest.split_first_chunk()?;
        let (taken, rest) = rest.split_first_chunk()?;
        let (hash, rest) = rest.split_first_chunk()?;
        let [state] = rest else { return None };
        Some(Enrolment {
            id: TransactionId(*id),
            kind: *kind,
            last: Nonce(*last),
            taken: Nonce(*taken),
            hash: CertHash(*hash),
            state: *ENROLMENT_STATES.get(usize::from(*state))?,
        })
    }
}
