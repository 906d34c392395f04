//! "The parts of a message": the body, by its kinds.

use super::der::{check_all, Elements};
use super::grammar::{certificates, free_text, type_and_value};
use super::rules::{BIT_STRING, INTEGER, NULL, OCTET_STRING, SEQUENCE};
use super::steps::{explicit, generic, generic_sequence, small_integer, tagged, within};
use super::Fault;
use crate::types::{Reading, Span};

const FIRST_BODY: u8 = explicit(0);
const LAST_BODY: u8 = explicit(26);

/// "Body: context tag 0 to 26 constructed, one element inside."
pub fn body(parts: &mut Elements, reading: &mut Reading) -> Result<(), Fault> {
    let (tag, body) = match parts.peek() {
        Some(tag @ FIRST_BODY..=LAST_BODY) => (tag, parts.expect(tag)?),
        _ => return Err(parts.misfit()),
    };
    reading.kind = tag - FIRST_BODY;
    reading.body = body.whole();
    reading.protected_len = reading.header.len + reading.body.len;
    within(body, |inside| match reading.kind {
        0 | 2 | 7 => cert_req_messages(inside, reading),
        1 | 3 | 8 => cert_rep_message(inside, reading),
        4 => {
            reading.request = generic(inside)?;
            Ok(())
        }
        19 => inside.expect(NULL).map(|_| ()),
        23 => error_message(inside, reading),
        24 => cert_confirm(inside, reading),
        _ => generic(inside).map(|_| ()),
    })
}

/// "Kinds 0 ir, 2 cr, 7 kur: SEQUENCE of one or more request messages."
fn cert_req_messages(inside: &mut Elements, reading: &mut Reading) -> Result<(), Fault> {
    let mut requests = inside.expect(SEQUENCE)?.children();
    let (request, number) = request_message(&mut requests)?;
    reading.entries = 1;
    while requests.peek().is_some() {
        request_message(&mut requests)?;
        reading.entries += 1;
    }
    if reading.entries == 1 {
        reading.request = request;
        reading.number = number;
    }
    Ok(())
}

/// "Each a SEQUENCE that begins with a SEQUENCE that begins with INTEGER
/// certReqId; the rest generic." The request message and its certReqId.
pub fn request_message(requests: &mut Elements) -> Result<(Span, u32), Fault> {
    let request = requests.expect(SEQUENCE)?;
    let mut parts = request.children();
    let mut fields = parts.expect(SEQUENCE)?.children();
    let number = small_integer(&mut fields)?;
    check_all(fields)?;
    check_all(parts)?;
    Ok((request.whole(), number))
}

/// "Kinds 1 ip, 3 cp, 8 kup: SEQUENCE of optional [1] SEQUENCE of one or more
/// certificates, then a SEQUENCE of responses", of which there may be none.
fn cert_rep_message(inside: &mut Elements, reading: &mut Reading) -> Result<(), Fault> {
    let message = inside.expect(SEQUENCE)?;
    within(message, |parts| {
        reading.ca_pubs = tagged(parts, 1, certificates)?;
        let mut responses = parts.expect(SEQUENCE)?.children();
        let mut last = Response::default();
        while responses.peek().is_some() {
            last = response(&mut responses)?;
            reading.entries += 1;
        }
        if reading.entries == 1 {
            reading.number = last.number;
            reading.has_status = true;
            reading.status = last.status;
            reading.certificate = last.certificate;
        }
        Ok(())
    })
}

#[derive(Default)]
struct Response {
    number: u32,
    status: u32,
    certificate: Span,
}

/// "Response: certReqId, status info, optional key pair, optional OCTET
/// STRING."
fn response(responses: &mut Elements) -> Result<Response, Fault> {
    let response = responses.expect(SEQUENCE)?;
    within(response, |parts| {
        let number = small_integer(parts)?;
        let status = status_info(parts)?;
        let certificate = match parts.optional(SEQUENCE)? {
            Some(pair) => within(pair, key_pair)?,
            None => Span::default(),
        };
        parts.optional(OCTET_STRING)?;
        Ok(Response {
            number,
            status,
            certificate,
        })
    })
}

/// "Key pair: SEQUENCE of [0] one certificate or [1] one element; then optional
/// [0], [1], one generic element inside each." The plain certificate, if any.
fn key_pair(parts: &mut Elements) -> Result<Span, Fault> {
    let certificate = if let Some(choice) = parts.optional(explicit(0))? {
        within(choice, generic_sequence)?
    } else {
        let choice = parts.expect(explicit(1))?;
        within(choice, generic)?;
        Span::default()
    };
    tagged(parts, 0, generic)?;
    tagged(parts, 1, generic)?;
    Ok(certificate)
}

/// "Status info: SEQUENCE of INTEGER status, optional free text, optional BIT
/// STRING failInfo with no trailing zero bit." The status.
fn status_info(run: &mut Elements) -> Result<u32, Fault> {
    let info = run.expect(SEQUENCE)?;
    within(info, |parts| {
        let status = small_integer(parts)?;
        if parts.peek() == Some(SEQUENCE) {
            free_text(parts)?;
        }
        if let Some(fail_info) = parts.optional(BIT_STRING)? {
            if ends_in_zero_bit(fail_info.content()) {
                return Err(fail_info.misfit());
            }
        }
        Ok(status)
    })
}

/// Whether the last bit of a sound BIT STRING is there and zero.
fn ends_in_zero_bit(content: &[u8]) -> bool {
    match content {
        [unused @ 0..=7, .., last] => last & (1 << unused) == 0,
        _ => false,
    }
}

/// "23 error: SEQUENCE of status info, optional INTEGER, optional free text as
/// in [7]."
fn error_message(inside: &mut Elements, reading: &mut Reading) -> Result<(), Fault> {
    let message = inside.expect(SEQUENCE)?;
    within(message, |parts| {
        reading.status = status_info(parts)?;
        reading.has_status = true;
        parts.optional(INTEGER)?;
        if parts.peek() == Some(SEQUENCE) {
            free_text(parts)?;
        }
        Ok(())
    })
}

/// "24 certConf: SEQUENCE of certificate statuses", of which there may be none.
fn cert_confirm(inside: &mut Elements, reading: &mut Reading) -> Result<(), Fault> {
    let mut statuses = inside.expect(SEQUENCE)?.children();
    let mut last = CertStatus::default();
    while statuses.peek().is_some() {
        last = cert_status(&mut statuses)?;
        reading.entries += 1;
    }
    if reading.entries == 1 {
        reading.cert_hash = last.hash;
        reading.number = last.number;
        reading.has_status = last.status.is_some();
        reading.status = last.status.unwrap_or(0);
        reading.hash_alg = last.hash_alg;
    }
    Ok(())
}

#[derive(Default)]
struct CertStatus {
    hash: Span,
    number: u32,
    status: Option<u32>,
    hash_alg: Span,
}

/// "OCTET STRING certHash, INTEGER certReqId, optional status info, optional
/// [0] AlgorithmIdentifier hashAlg."
fn cert_status(statuses: &mut Elements) -> Result<CertStatus, Fault> {
    let status = statuses.expect(SEQUENCE)?;
    within(status, |parts| {
        Ok(CertStatus {
            hash: parts.expect(OCTET_STRING)?.inner(),
            number: small_integer(parts)?,
            status: if parts.peek() == Some(SEQUENCE) {
                Some(status_info(parts)?)
            } else {
                None
            },
            hash_alg: tagged(parts, 0, type_and_value)?,
        })
    })
}
