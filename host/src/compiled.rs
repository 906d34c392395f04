//! A safe wrapper of the compiled proved reader, the static library
//! `libduskstall.a`.
//!
//! Everything that decides is in the library; here its plain numbers are only
//! put into the types the independent reader answers with.

use crate::library;
use crate::types::{Reading, Refused, Span};

/// How many numbers a clean reading fills.
pub const FIELDS: usize = 47;

/// The call's answer where the lent fields are fewer than [`FIELDS`].
pub const TOO_FEW_FIELDS: u64 = 255;

/// The call as it is: 0 and all fields filled for a clean reading, the
/// refusal's number and its offset and rule in the first two fields, or
/// [`TOO_FEW_FIELDS`] and nothing written.
pub fn read_fields(message: &[u8], fields: &mut [u64]) -> u64 {
    library::read(message, fields)
}

/// Reads a message. An answer outside the call's contract (a number too large
/// for its field, an unknown refusal) comes back as refusal 255, which no
/// reader gives, so that a comparison shows it.
pub fn read(message: &[u8]) -> Result<Reading, Refused> {
    let mut fields = [0; FIELDS];
    match read_fields(message, &mut fields) {
        0 => reading(&fields).ok_or(OUTSIDE_CONTRACT),
        number => Err(refused(number, &fields).unwrap_or(OUTSIDE_CONTRACT)),
    }
}

/// Checks that `bytes` are a run of whole DER elements, at most 16 deep, and
/// gives the lowest fault's offset and rule if they are not.
pub fn check_elements(bytes: &[u8]) -> Option<(usize, u8)> {
    match check_number(bytes) {
        0 => None,
        fault => Some((
            usize::try_from(fault / 8).unwrap_or(usize::MAX),
            (fault % 8) as u8,
        )),
    }
}

/// The call as it is: 0 for a sound run, else eight times the offset plus the
/// rule.
pub fn check_number(bytes: &[u8]) -> u64 {
    library::check(bytes)
}

const OUTSIDE_CONTRACT: Refused = Refused {
    number: 255,
    offset: 0,
    rule: 0,
};

fn refused(number: u64, fields: &[u64; FIELDS]) -> Option<Refused> {
    Some(Refused {
        number: u8::try_from(number).ok()?,
        offset: usize::try_from(fields[0]).ok()?,
        rule: u8::try_from(fields[1]).ok()?,
    })
}

fn reading(fields: &[u64; FIELDS]) -> Option<Reading> {
    let size = |at: usize| usize::try_from(fields[at]).ok();
    let word = |at: usize| u32::try_from(fields[at]).ok();
    let span = |at: usize| {
        Some(Span {
            start: size(at)?,
            len: size(at + 1)?,
        })
    };
    Some(Reading {
        kind: u8::try_from(fields[0]).ok()?,
        version: word(1)?,
        entries: size(2)?,
        header: span(3)?,
        body: span(5)?,
        protection: span(7)?,
        extra_certs: span(9)?,
        sender: span(11)?,
        recipient: span(13)?,
        message_time: span(15)?,
        protection_alg: span(17)?,
        sender_kid: span(19)?,
        recip_kid: span(21)?,
        transaction_id: span(23)?,
        sender_nonce: span(25)?,
        recip_nonce: span(27)?,
        free_text: span(29)?,
        general_info: span(31)?,
        ca_pubs: span(33)?,
        number: word(35)?,
        has_status: match fields[36] {
            0 => false,
            1 => true,
            _ => return None,
        },
        status: word(37)?,
        cert_hash: span(38)?,
        hash_alg: span(40)?,
        certificate: span(42)?,
        request: span(44)?,
        protected_len: size(46)?,
    })
}
