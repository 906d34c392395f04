//! The calls of the compiled library, `libduskstall.a`, as they are: over
//! slices, answered by a number and by bytes.
//!
//! All that decides is in the library. Its declarations are in `foreign`.

mod foreign;

/// A call's number where the bytes of the table or the enrolment are none.
/// Nothing has changed, as with the next two; the lowest that applies is given.
pub const NO_STATE: u64 = 251;

/// A call's number where an id, a nonce or a hash has another length; where a
/// message is written, the order or the list of its parts.
pub const BAD_LENGTH: u64 = 252;

/// A call's number where the answer has no room.
pub const NO_ROOM: u64 = 253;

/// How many numbers say where the parts of a message to be written lie: two for
/// each of eleven.
pub const GIVEN: usize = 22;

/// A good verdict. This number alone is good: -1, by which others tell a
/// failure, is not.
pub const VERDICT_GOOD: u8 = 1;

/// A bad verdict, as every number but [`VERDICT_GOOD`] is.
pub const VERDICT_BAD: u8 = 0;

/// The host accepts the certificate. This number alone accepts.
pub const DECISION_ACCEPT: u8 = 1;

/// It does not, as by every number but [`DECISION_ACCEPT`].
pub const DECISION_DECLINE: u8 = 0;

// SAFETY, of every call below: each pointer comes with the length of the slice
// it was taken from, which stays borrowed during the call. The library only
// reads what is lent `const`, reads and writes nothing outside of the slices
// and keeps no pointer, and slices lent `mut` do not overlap others.

/// Reads a message: 0 and all fields filled, or the refusal's number with its
/// offset and rule in the first two fields.
pub fn read(message: &[u8], fields: &mut [u64]) -> u64 {
    // SAFETY: as said above the declarations.
    unsafe {
        foreign::duskstall_read(
            message.as_ptr(),
            message.len(),
            fields.as_mut_ptr(),
            fields.len(),
        )
    }
}

/// Checks a run of DER elements: 0, or eight times the fault's offset plus its
/// rule.
pub fn check(bytes: &[u8]) -> u64 {
    // SAFETY: as said above the declarations.
    unsafe { foreign::duskstall_check(bytes.as_ptr(), bytes.len()) }
}

/// Writes the message that an outgoing one says, around the parts that lie in
/// the source: of the [`GIVEN`] numbers two each are a part's start and length.
/// Gives the size of the message, now the buffer's first bytes; or a refusal's
/// number, or [`BAD_LENGTH`], times 2^32, with nothing changed.
pub fn write(
    outgoing: &[u8],
    version: u32,
    given: &[u64],
    source: &[u8],
    buffer: &mut [u8],
) -> u64 {
    // SAFETY: as said above the declarations.
    unsafe {
        foreign::duskstall_write(
            outgoing.as_ptr(),
            outgoing.len(),
            version,
            given.as_ptr(),
            given.len(),
            source.as_ptr(),
            source.len(),
            buffer.as_mut_ptr(),
            buffer.len(),
        )
    }
}

/// The size that the library has for a table (0), an enrolment (1), the
/// registrar's answer (2), an end entity's (3), the numbers of a reading (4),
/// the longest message (5), the numbers that say where the parts of a message to
/// be written lie (6) and an outgoing message (7); 0 for any other number.
///
/// ```
/// use duskstall_host::{library, ENROLMENT_BYTES, MESSAGE_LIMIT, OUTGOING_BYTES, TABLE_BYTES};
///
/// assert_eq!(library::size(0), TABLE_BYTES as u64);
/// assert_eq!(library::size(1), ENROLMENT_BYTES as u64);
/// assert_eq!(library::size(5), MESSAGE_LIMIT as u64);
/// assert_eq!(library::size(6), library::GIVEN as u64);
/// assert_eq!(library::size(7), OUTGOING_BYTES as u64);
/// assert_eq!(library::size(8), 0);
/// ```
pub fn size(what: u8) -> u64 {
    // SAFETY: as said above the declarations.
    unsafe { foreign::duskstall_size(what) }
}

/// The empty table.
pub fn registrar_empty(table: &mut [u8]) -> u64 {
    // SAFETY: as said above the declarations.
    unsafe { foreign::duskstall_registrar_empty(table.as_mut_ptr(), table.len()) }
}

/// A message to the registrar. `good` is [`VERDICT_GOOD`] where its protection
/// was made with the key of `board`; every other number is a bad verdict.
pub fn registrar_message(
    table: &mut [u8],
    message: &[u8],
    good: u8,
    board: u16,
    nonce: &[u8],
    answer: &mut [u8],
) -> u64 {
    // SAFETY: as said above the declarations.
    unsafe {
        foreign::duskstall_registrar_message(
            table.as_mut_ptr(),
            table.len(),
            message.as_ptr(),
            message.len(),
            good,
            board,
            nonce.as_ptr(),
            nonce.len(),
            answer.as_mut_ptr(),
            answer.len(),
        )
    }
}

/// The host issues a certificate with this hash.
pub fn registrar_issue(
    table: &mut [u8],
    id: &[u8],
    nonce: &[u8],
    hash: &[u8],
    answer: &mut [u8],
) -> u64 {
    // SAFETY: as said above the declarations.
    unsafe {
        foreign::duskstall_registrar_issue(
            table.as_mut_ptr(),
            table.len(),
            id.as_ptr(),
            id.len(),
            nonce.as_ptr(),
            nonce.len(),
            hash.as_ptr(),
            hash.len(),
            answer.as_mut_ptr(),
            answer.len(),
        )
    }
}

/// The host refuses a request.
pub fn registrar_refuse(table: &mut [u8], id: &[u8], nonce: &[u8], answer: &mut [u8]) -> u64 {
    // SAFETY: as said above the declarations.
    unsafe {
        foreign::duskstall_registrar_refuse(
            table.as_mut_ptr(),
            table.len(),
            id.as_ptr(),
            id.len(),
            nonce.as_ptr(),
            nonce.len(),
            answer.as_mut_ptr(),
            answer.len(),
        )
    }
}

/// The host gives up waiting for a confirmation.
pub fn registrar_lapse(table: &mut [u8], id: &[u8], answer: &mut [u8]) -> u64 {
    // SAFETY: as said above the declarations.
    unsafe {
        foreign::duskstall_registrar_lapse(
            table.as_mut_ptr(),
            table.len(),
            id.as_ptr(),
            id.len(),
            answer.as_mut_ptr(),
            answer.len(),
        )
    }
}

/// The host frees a slot.
pub fn registrar_close(table: &mut [u8], id: &[u8], answer: &mut [u8]) -> u64 {
    // SAFETY: as said above the declarations.
    unsafe {
        foreign::duskstall_registrar_close(
            table.as_mut_ptr(),
            table.len(),
            id.as_ptr(),
            id.len(),
            answer.as_mut_ptr(),
            answer.len(),
        )
    }
}

/// A new enrolment, whatever the enrolment's bytes are.
pub fn end_entity_start(
    enrolment: &mut [u8],
    kind: u8,
    id: &[u8],
    nonce: &[u8],
    answer: &mut [u8],
) -> u64 {
    // SAFETY: as said above the declarations.
    unsafe {
        foreign::duskstall_end_entity_start(
            enrolment.as_mut_ptr(),
            enrolment.len(),
            kind,
            id.as_ptr(),
            id.len(),
            nonce.as_ptr(),
            nonce.len(),
            answer.as_mut_ptr(),
            answer.len(),
        )
    }
}

/// A message to an end entity. `good` is [`VERDICT_GOOD`] where its protection
/// was made with the registrar's key; every other number is a bad verdict.
/// `accept` is [`DECISION_ACCEPT`] where the host accepts the certificate; every
/// other number declines it.
pub fn end_entity_message(
    enrolment: &mut [u8],
    message: &[u8],
    good: u8,
    accept: u8,
    hash: &[u8],
    nonce: &[u8],
    answer: &mut [u8],
) -> u64 {
    // SAFETY: as said above the declarations.
    unsafe {
        foreign::duskstall_end_entity_message(
            enrolment.as_mut_ptr(),
            enrolment.len(),
            message.as_ptr(),
            message.len(),
            good,
            accept,
            hash.as_ptr(),
            hash.len(),
            nonce.as_ptr(),
            nonce.len(),
            answer.as_mut_ptr(),
            answer.len(),
        )
    }
}

/// No answer came in time.
pub fn end_entity_time_out(enrolment: &mut [u8], answer: &mut [u8]) -> u64 {
    // SAFETY: as said above the declarations.
    unsafe {
        foreign::duskstall_end_entity_time_out(
            enrolment.as_mut_ptr(),
            enrolment.len(),
            answer.as_mut_ptr(),
            answer.len(),
        )
    }
}
