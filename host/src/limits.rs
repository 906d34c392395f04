//! The limits and widths that document 01 gives, of which all sizes are made. The
//! limits of a message and of the table are numbers here, and names in the rest
//! of this crate and its tests, which hold the library and the C header to them.

/// The longest message, in bytes; the shortest has one.
pub const MESSAGE_LIMIT: usize = 16_384;

/// The words of refusal 1, which name that limit.
pub(crate) const REFUSED_LENGTH: &str = "length 0 or above 16,384";

/// How many transactions the registrar's table holds.
pub const SLOTS: usize = 16;

/// A transactionID, in bytes.
pub const ID_BYTES: usize = 16;

/// A senderNonce or recipNonce, in bytes.
pub const NONCE_BYTES: usize = 16;

/// A nonce that the host draws, in bytes.
pub const FRESH_NONCE_BYTES: usize = 16;

/// A certHash, in bytes.
pub const HASH_BYTES: usize = 32;

// An answer names a slot by one byte, and the tests a board more than there are
// slots.
const _: () = assert!(SLOTS <= u8::MAX as usize);
