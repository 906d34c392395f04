//! Refusal 36: "a given element or field doesn't fit document 01's grammar at its
//! place".

use super::message::Message;
use super::order::{Order, Part, PARTS};
use crate::independent::bodies::request_message;
use crate::independent::der::Elements;
use crate::independent::grammar::{free_text, general_infos, general_name, type_and_value};
use crate::independent::rules::bit_string_fits;
use crate::independent::steps::{generic, generic_sequence};
use crate::independent::{Fault, Rule};
use crate::types::Span;

/// What does not fit, and why.
#[derive(Clone, Copy, Debug, PartialEq, Eq, PartialOrd, Ord)]
pub enum Misfit {
    /// The order is of no kind that is written.
    Kind,
    Order(Field, Why),
    Given(Part, Why),
}

/// What an order has in some kinds only.
#[derive(Clone, Copy, Debug, PartialEq, Eq, PartialOrd, Ord)]
pub enum Field {
    RecipNonce,
    Status,
    Number,
    Hash,
    Failure,
}

#[derive(Clone, Copy, Debug, PartialEq, Eq, PartialOrd, Ord)]
pub enum Why {
    Missing,
    Unwanted,
    /// Absent, and its bytes are not zero.
    NotZero,
    /// It starts at 0, where no part lies.
    AtStart,
    /// It reaches outside the source.
    Outside,
    /// The number of the rule that it breaks.
    Rule(u8),
}

/// What the orders of a kind have.
struct Has {
    status: bool,
    number: bool,
    hash: bool,
    failure: bool,
}

fn has(kind: u8) -> Option<Has> {
    let (status, number, hash, failure) = match kind {
        0 | 2 | 4 | 7 | 19 => (false, false, false, false),
        1 | 3 | 8 => (true, true, false, false),
        23 => (true, false, false, true),
        24 => (true, true, true, false),
        _ => return None,
    };
    Some(Has {
        status,
        number,
        hash,
        failure,
    })
}

/// The order has what its kind has, and nothing else.
pub fn order(order: &Order) -> Result<(), Misfit> {
    let has = has(order.kind).ok_or(Misfit::Kind)?;
    let is_zero = |bytes: &[u8]| bytes.iter().all(|byte| *byte == 0);
    let nonce_is_unset = is_zero(order.recip_nonce);
    unset(Field::RecipNonce, order.has_recip_nonce, nonce_is_unset)?;
    flagged(Field::Status, has.status, order.has_status)?;
    unset(Field::Status, has.status, order.status == 0)?;
    flagged(Field::Number, has.number, order.has_number)?;
    unset(Field::Number, has.number, order.number == 0)?;
    unset(Field::Hash, has.hash, is_zero(order.hash))?;
    match order.failure {
        Some(_) if !has.failure => Err(Misfit::Order(Field::Failure, Why::Unwanted)),
        _ => Ok(()),
    }
}

/// A field is there exactly where its kind has it.
fn flagged(field: Field, has: bool, there: bool) -> Result<(), Misfit> {
    match (has, there) {
        (true, false) => Err(Misfit::Order(field, Why::Missing)),
        (false, true) => Err(Misfit::Order(field, Why::Unwanted)),
        _ => Ok(()),
    }
}

/// A field that is not there is unset.
fn unset(field: Field, there: bool, is_zero: bool) -> Result<(), Misfit> {
    match there || is_zero {
        true => Ok(()),
        false => Err(Misfit::Order(field, Why::NotZero)),
    }
}

/// Every part lies in the source and fits its place.
pub fn parts(
    message: &Message,
    given: &[u64; 2 * PARTS.len()],
    source: &[u8],
) -> Result<(), Misfit> {
    for part in PARTS {
        let misfit = |why| Misfit::Given(part, why);
        lies(part.span(given), source.len()).map_err(misfit)?;
        let needed = needs(part, &message.order);
        match message.parts.get(part) {
            None if needed == Some(true) => return Err(misfit(Why::Missing)),
            None => {}
            Some(_) if needed == Some(false) => return Err(misfit(Why::Unwanted)),
            Some(bytes) => fits(part, message.order.kind, bytes).map_err(misfit)?,
        }
    }
    Ok(())
}

/// Absent, or inside the source and not at its start.
fn lies([start, len]: [u64; 2], source: usize) -> Result<(), Why> {
    match (start, len) {
        (0, 0) => Ok(()),
        (0, _) => Err(Why::AtStart),
        _ if start.saturating_add(len) > source as u64 => Err(Why::Outside),
        _ => Ok(()),
    }
}

/// Whether a part has to be there, or must not be; none if it may be.
fn needs(part: Part, order: &Order) -> Option<bool> {
    match part {
        Part::Sender | Part::Recipient => Some(true),
        Part::Request => Some(matches!(order.kind, 0 | 2 | 4 | 7)),
        Part::Certificate => Some(matches!(order.kind, 1 | 3 | 8) && order.status == 0),
        _ => None,
    }
}

type Step = fn(&mut Elements) -> Result<Span, Fault>;

/// How many elements a part lies inside, and how the reader takes it there: a
/// name in message and header; a field under an explicit tag as well.
fn fits(part: Part, kind: u8, bytes: &[u8]) -> Result<(), Why> {
    let (level, step): (usize, Step) = match part {
        Part::Sender | Part::Recipient => (2, general_name),
        Part::ProtectionAlg => (3, type_and_value),
        Part::FreeText => (3, free_text),
        Part::GeneralInfo => (3, general_infos),
        // In message, body and, but for p10cr, a SEQUENCE of requests.
        Part::Request if kind == 4 => (2, generic),
        Part::Request => (3, |run| Ok(request_message(run)?.0)),
        // In message, body, content, responses, response, key pair and choice.
        Part::Certificate => (7, generic_sequence),
        Part::Protection if bit_string_fits(bytes) => return Ok(()),
        Part::Protection => return Err(Why::Rule(Rule::Content as u8)),
        Part::MessageTime | Part::SenderKid | Part::RecipKid => return Ok(()),
    };
    let mut run = Elements::inside(bytes, level);
    let taken = step(&mut run).and_then(|_| run.finish());
    taken.map_err(|fault| Why::Rule(fault.rule as u8))
}
