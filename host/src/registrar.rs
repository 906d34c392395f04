//! The registrar, run by the compiled library.

use crate::answers::{self, REGISTRAR_ANSWER_BYTES};
use crate::ends::{CertHash, FreshNonce, RegistrarAnswer, Slot, TransactionId, Verdict};
use crate::library;
use crate::states::{Transaction, TransactionState, TABLE_BYTES, TRANSACTION_BYTES};

/// A registrar with its table of [`SLOTS`](crate::SLOTS) transactions, in the
/// library's bytes.
///
/// Every call answers, whatever it is given. A refused call leaves the table
/// as it was.
///
/// ```
/// use duskstall_host::testing::writing::written;
/// use duskstall_host::{Board, CertHash, EndEntity, FreshNonce, Nonce, Outcome, Registrar};
/// use duskstall_host::{Slot, TransactionId, TransactionState, Verdict};
///
/// let id = TransactionId([0x11; 16]);
/// let (_, request) = EndEntity::start(0, id, FreshNonce([0x22; 16]))?;
/// // The host has the library write what is to be sent, and protects it.
/// let bytes = written(&request);
///
/// let mut registrar = Registrar::new();
/// let answer = registrar.message(&bytes, Verdict::Good(Board(7)), FreshNonce([0x33; 16]));
/// assert_eq!(answer.outcome, Outcome::Done);
/// assert_eq!(answer.slot, Some(Slot(0)));
///
/// let answer = registrar.issue(id, FreshNonce([0x44; 16]), CertHash([0xAB; 32]));
/// let response = answer.outgoing.expect("the response to the request");
/// assert_eq!((response.kind, response.recip_nonce), (1, Some(Nonce([0x22; 16]))));
///
/// let (slot, transaction) = registrar.find(id).expect("the transaction is open");
/// assert_eq!(slot, Slot(0));
/// assert_eq!(transaction.board, Board(7));
/// assert_eq!(transaction.state, TransactionState::Granted);
/// # Ok::<(), duskstall_host::Refusal>(())
/// ```
///
/// A refusal says why:
///
/// ```
/// use duskstall_host::{Registrar, TransactionId};
///
/// let answer = Registrar::new().close(TransactionId([0; 16]));
/// let refusal = answer.outcome.refusal().expect("there is no such transaction");
/// assert_eq!((refusal.number, refusal.bit), (30, None));
/// assert_eq!(refusal.to_string(), "refused 30: host step, id not in the book");
/// ```
#[derive(Clone, Debug, PartialEq, Eq)]
pub struct Registrar {
    table: [u8; TABLE_BYTES],
}

impl Registrar {
    /// A registrar with the empty table.
    pub fn new() -> Registrar {
        let mut table = [0; TABLE_BYTES];
        library::registrar_empty(&mut table);
        Registrar { table }
    }

    /// The table from bytes that [`Registrar::as_bytes`] gave, or any others
    /// that are one.
    ///
    /// ```
    /// use duskstall_host::{Registrar, TABLE_BYTES};
    ///
    /// let registrar = Registrar::new();
    /// assert_eq!(Registrar::from_bytes(registrar.as_bytes()), Some(registrar));
    /// assert_eq!(Registrar::from_bytes(&[0xFF; TABLE_BYTES]), None);
    /// assert_eq!(Registrar::from_bytes(&[]), None);
    /// ```
    pub fn from_bytes(bytes: &[u8]) -> Option<Registrar> {
        let mut table: [u8; TABLE_BYTES] = bytes.try_into().ok()?;
        // With an id of no bytes the library only judges the table.
        match library::registrar_close(&mut table, &[], &mut []) {
            library::BAD_LENGTH => Some(Registrar { table }),
            _ => None,
        }
    }

    /// The table's bytes, to be kept.
    pub fn as_bytes(&self) -> &[u8; TABLE_BYTES] {
        &self.table
    }

    /// A message of any bytes. `nonce` is fresh, for what is sent.
    pub fn message(
        &mut self,
        message: &[u8],
        verdict: Verdict,
        nonce: FreshNonce,
    ) -> RegistrarAnswer {
        let (good, board) = match verdict {
            Verdict::Bad => (library::VERDICT_BAD, 0),
            Verdict::Good(board) => (library::VERDICT_GOOD, board.0),
        };
        self.call(|table, answer| {
            library::registrar_message(table, message, good, board, &nonce.0, answer)
        })
    }

    /// Grants a request, with the hash of the certificate and a fresh nonce for
    /// the response.
    pub fn issue(
        &mut self,
        id: TransactionId,
        nonce: FreshNonce,
        hash: CertHash,
    ) -> RegistrarAnswer {
        self.call(|table, answer| library::registrar_issue(table, &id.0, &nonce.0, &hash.0, answer))
    }

    /// Refuses a request, with a fresh nonce for the response.
    pub fn refuse(&mut self, id: TransactionId, nonce: FreshNonce) -> RegistrarAnswer {
        self.call(|table, answer| library::registrar_refuse(table, &id.0, &nonce.0, answer))
    }

    /// Gives up waiting for the confirmation of a certificate.
    pub fn lapse(&mut self, id: TransactionId) -> RegistrarAnswer {
        self.call(|table, answer| library::registrar_lapse(table, &id.0, answer))
    }

    /// Frees the slot of a transaction that is over.
    pub fn close(&mut self, id: TransactionId) -> RegistrarAnswer {
        self.call(|table, answer| library::registrar_close(table, &id.0, answer))
    }

    /// All transactions, with their slots.
    pub fn transactions(&self) -> impl Iterator<Item = (Slot, Transaction)> + '_ {
        self.table
            .chunks(TRANSACTION_BYTES)
            .enumerate()
            .filter_map(|(slot, bytes)| Some((Slot(slot), Transaction::unpack(bytes)?)))
            .filter(|(_, transaction)| transaction.state != TransactionState::Free)
    }

    /// The transaction with this id, and its slot.
    pub fn find(&self, id: TransactionId) -> Option<(Slot, Transaction)> {
        self.transactions()
            .find(|(_, transaction)| transaction.id == id)
    }

    fn call(&mut self, call: impl FnOnce(&mut [u8], &mut [u8]) -> u64) -> RegistrarAnswer {
        let mut answer = [0; REGISTRAR_ANSWER_BYTES];
        let number = call(&mut self.table, &mut answer);
        answers::registrar(number, &answer)
    }
}

impl Default for Registrar {
    fn default() -> Self {
        Registrar::new()
    }
}
