//! The host's side of Duskstall: the compiled proved library behind safe types,
//! and what it is held to, an independent reader and writer of CMP messages and a
//! model of both ends in ordinary Rust.
//!
//! [`Registrar`] and [`EndEntity`] run the two ends of an enrolment; [`write()`] and
//! [`write_protected`] write the messages that they give to be sent, and `compiled`
//! reads a message. `independent` and `model` are written from the papers, and
//! where these are silent from `docs/DECISIONS.md`; `testing` makes messages for the
//! tests.
//!
//! One enrolment, with a line that loses nothing:
//!
//! ```
//! use duskstall_host::{
//!     write_protected, Board, CertHash, Decision, EndEntity, EnrolmentState, FreshNonce, Given,
//!     Outgoing, Refusal, Registrar, TransactionId, TransactionState, Verdict,
//! };
//!
//! // The host draws ids and nonces, hashes certificates, makes and verifies protection.
//! let id = TransactionId([0xA1; 16]);
//! let nonce = |number| FreshNonce([number; 16]);
//! let hash = CertHash([0xAB; 32]);
//! let from_board = Verdict::Good(Board(7));
//! let protect = |part: &[u8]| vec![part.len() as u8]; // no protection
//!
//! // It gives names and the rest of a message in DER, here as little as there may be.
//! let name = [0xA4, 0x02, 0x30, 0x00];
//! let given = Given {
//!     protection_alg: Some(&[0x30, 0x03, 0x06, 0x01, 0x2A]),
//!     ..Given::new(2, &name, &name)
//! };
//! let message = |outgoing: Outgoing, given: Given| -> Result<Vec<u8>, Refusal> {
//!     let mut buffer = [0; 1_000];
//!     let size = write_protected(&outgoing, &given, &mut buffer, protect)?;
//!     Ok(buffer[..size].to_vec())
//! };
//!
//! let mut registrar = Registrar::new();
//! let (mut board, request) = EndEntity::start(0, id, nonce(1))?;
//! let asked = Given { request: Some(&[0x30, 0x05, 0x30, 0x03, 0x02, 0x01, 0x00]), ..given };
//! registrar.message(&message(request, asked)?, from_board, nonce(2));
//!
//! let response = registrar.issue(id, nonce(2), hash).outgoing.expect("an ip");
//! let granted = Given { certificate: Some(&[0x30, 0x00]), ..given };
//! let decision = Decision { accept: true, hash };
//! let answer = board.message(&message(response, granted)?, true, decision, nonce(3));
//! let cert_conf = answer.outgoing.expect("a certConf");
//!
//! let answer = registrar.message(&message(cert_conf, given)?, from_board, nonce(4));
//! let pkiconf = answer.outgoing.expect("a pkiconf");
//! board.message(&message(pkiconf, given)?, true, decision, nonce(5));
//!
//! let (_, transaction) = registrar.find(id).expect("it is open");
//! assert_eq!(transaction.state, TransactionState::Confirmed);
//! assert_eq!(board.enrolment().state, EnrolmentState::Sure);
//! assert_eq!(board.enrolment().hash, transaction.hash);
//! # Ok::<(), duskstall_host::Refusal>(())
//! ```
//!
//! The library's proof says that both ends agree, whatever the line loses,
//! repeats, reorders or makes up: a board that is Sure has its transaction
//! Confirmed with the same hash, and one that is Declined has it Declined, until
//! it is closed; where a transaction is Confirmed, its board holds that hash and
//! is Sure, Confirming or Unsettled; a board that Failed never had it Confirmed.
//! This is `HeaderDemand3` in `crates/lent/specs`, of any list of the library's
//! calls on lent bytes; `LentDemand1` there says that a refused call leaves the
//! state's bytes as they were. Not proved are the declarations of these calls in
//! C and in Rust, this crate, and the compiler.
//!
//! The agreement supposes of the host:
//!
//! - a good verdict is given only for a message that the sender it names issued;
//! - no id and no nonce is drawn twice;
//! - a registrar or an end entity that was replaced by a clone of an earlier
//!   state, or by a new one, is not the same any more.
//!
//! With the static library built, `cargo test --release -- --nocapture`
//! compares all of it and `cargo run --release --bin bench` measures it.

mod answers;
pub mod compiled;
mod end_entity;
mod ends;
pub mod independent;
pub mod library;
mod limits;
pub mod model;
mod refusal;
mod registrar;
mod states;
pub mod testing;
mod types;
mod writer;

pub use answers::{END_ENTITY_ANSWER_BYTES, OUTGOING_BYTES, REGISTRAR_ANSWER_BYTES};
pub use end_entity::EndEntity;
pub use ends::{
    Board, CertHash, Decision, EndEntityAnswer, FreshNonce, Nonce, Outcome, Outgoing,
    RegistrarAnswer, Slot, TransactionId, Verdict,
};
pub use limits::{FRESH_NONCE_BYTES, HASH_BYTES, ID_BYTES, MESSAGE_LIMIT, NONCE_BYTES, SLOTS};
pub use refusal::Refusal;
pub use registrar::Registrar;
pub use states::{
    Enrolment, EnrolmentState, Transaction, TransactionState, ENROLMENT_BYTES, ENROLMENT_STATES,
    TABLE_BYTES, TRANSACTION_BYTES, TRANSACTION_STATES,
};
pub use types::{Reading, Refused, Span};
pub use writer::{write, write_protected, Given};

/// The README's example in Rust.
#[cfg(doctest)]
#[doc = include_str!("../../README.md")]
struct Readme;
