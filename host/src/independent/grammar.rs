//! "The parts of a message": the message and its header, part by part.

use super::bodies::body;
use super::der::Elements;
use super::rules::{BIT_STRING, GENERALIZED_TIME, OBJECT_IDENTIFIER, OCTET_STRING};
use super::rules::{SEQUENCE, UTF8_STRING};
use super::steps::{explicit, generic, generic_sequence, one_or_more, small_integer};
use super::steps::{tagged, tagged_primitive, within};
use super::Fault;
use crate::types::{Reading, Span};

/// "PKIMessage: SEQUENCE of header, body, optional [0] BIT STRING protection,
/// optional [1] SEQUENCE of one or more certificates. Nothing after it."
pub fn pki_message(message: &[u8], reading: &mut Reading) -> Result<(), Fault> {
    let mut input = Elements::of(message);
    let outer = input.expect(SEQUENCE)?;
    within(outer, |parts| {
        header(parts, reading)?;
        body(parts, reading)?;
        if let Some(wrapper) = parts.optional(explicit(0))? {
            within(wrapper, |inside| inside.expect(BIT_STRING))?;
            reading.protection = wrapper.whole();
        }
        if let Some(wrapper) = parts.optional(explicit(1))? {
            within(wrapper, certificates)?;
            reading.extra_certs = wrapper.whole();
        }
        Ok(())
    })?;
    input.finish()
}

/// "A certificate is any SEQUENCE", here a SEQUENCE of one or more.
pub fn certificates(run: &mut Elements) -> Result<Span, Fault> {
    one_or_more(run, generic_sequence)
}

/// "Header: pvno INTEGER; sender; recipient; then optional and in this order
/// [0] GeneralizedTime, [1] AlgorithmIdentifier, [2] and [3] key identifiers,
/// [4] transactionID, [5] senderNonce, [6] recipNonce (2 to 6 OCTET STRING),
/// [7] SEQUENCE of one or more UTF8String, [8] SEQUENCE of one or more
/// InfoTypeAndValue."
fn header(parts: &mut Elements, reading: &mut Reading) -> Result<(), Fault> {
    let header = parts.expect(SEQUENCE)?;
    reading.header = header.whole();
    within(header, |fields| {
        reading.version = small_integer(fields)?;
        reading.sender = general_name(fields)?;
        reading.recipient = general_name(fields)?;
        reading.message_time = tagged_primitive(fields, 0, GENERALIZED_TIME)?;
        reading.protection_alg = tagged(fields, 1, type_and_value)?;
        reading.sender_kid = tagged_primitive(fields, 2, OCTET_STRING)?;
        reading.recip_kid = tagged_primitive(fields, 3, OCTET_STRING)?;
        reading.transaction_id = tagged_primitive(fields, 4, OCTET_STRING)?;
        reading.sender_nonce = tagged_primitive(fields, 5, OCTET_STRING)?;
        reading.recip_nonce = tagged_primitive(fields, 6, OCTET_STRING)?;
        reading.free_text = tagged(fields, 7, free_text)?;
        reading.general_info = tagged(fields, 8, general_infos)?;
        Ok(())
    })
}

/// "A GeneralName is one context element 0 to 8; 0, 3, 4, 5 constructed, the
/// rest primitive."
pub fn general_name(run: &mut Elements) -> Result<Span, Fault> {
    match run.peek() {
        Some(0xA0 | 0xA3 | 0xA4 | 0xA5 | 0x81 | 0x82 | 0x86 | 0x87 | 0x88) => generic(run),
        _ => Err(run.misfit()),
    }
}

/// "AlgorithmIdentifier and InfoTypeAndValue: SEQUENCE of an OID and at most
/// one more element."
pub fn type_and_value(run: &mut Elements) -> Result<Span, Fault> {
    let sequence = run.expect(SEQUENCE)?;
    within(sequence, |inside| {
        inside.expect(OBJECT_IDENTIFIER)?;
        if inside.peek().is_some() {
            generic(inside)?;
        }
        Ok(sequence.whole())
    })
}

/// A SEQUENCE of one or more InfoTypeAndValue.
pub fn general_infos(run: &mut Elements) -> Result<Span, Fault> {
    one_or_more(run, type_and_value)
}

/// A SEQUENCE of one or more UTF8String.
pub fn free_text(run: &mut Elements) -> Result<Span, Fault> {
    one_or_more(run, |texts| Ok(texts.expect(UTF8_STRING)?.whole()))
}
