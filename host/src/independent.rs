//! The independent reader: CMP messages read by ordinary Rust; and in `writer`
//! the independent writer.
//!
//! It is written from the build description alone and shares no code, table or
//! constant with the proved reader, which is compared with it and measured
//! against it. It borrows the message, copies none of it and allocates nothing.
//!
//! One walk from left to right does both checks. Every element is held to
//! "DER as we take it" when it is met, and to its place in "The parts of a
//! message" straight after. So the walk's first fault is the lowest, with one
//! exception that [`read`] sees to: an element still missing at its parent's
//! end is shown at that end, where another element may begin and be at fault
//! itself.

mod bodies;
mod der;
mod grammar;
mod rules;
mod steps;
#[cfg(test)]
mod tests;
pub mod writer;

use crate::limits::MESSAGE_LIMIT;
use crate::types::{Reading, Refused};
use der::{check_all, Elements};

/// The rules as M-107 numbers them: the four points of "DER as we take it",
/// then the grammar.
#[derive(Clone, Copy, Debug, PartialEq, Eq, PartialOrd, Ord)]
enum Rule {
    Tag = 1,
    Length = 2,
    Form = 3,
    Content = 4,
    Grammar = 5,
}

/// A broken rule and the byte it is shown at. Of two faults the lesser is
/// named: the lower offset, and there the lower rule.
#[derive(Clone, Copy, Debug, PartialEq, Eq, PartialOrd, Ord)]
struct Fault {
    offset: usize,
    rule: Rule,
}

/// Reads a message of any bytes.
pub fn read(message: &[u8]) -> Result<Reading, Refused> {
    if message.is_empty() || message.len() > MESSAGE_LIMIT {
        return Err(Refused {
            number: 1,
            offset: 0,
            rule: 0,
        });
    }
    let mut reading = Reading::default();
    match grammar::pki_message(message, &mut reading) {
        Ok(()) => Ok(reading),
        Err(fault) => Err(refused(fault, message)),
    }
}

/// Checks that `bytes` are a run of whole DER elements, at most 16 deep, and
/// gives the lowest fault's offset and rule if they are not.
pub fn check_elements(bytes: &[u8]) -> Option<(usize, u8)> {
    match check_all(Elements::of(bytes)) {
        Ok(()) => None,
        Err(fault) => Some((fault.offset, fault.rule as u8)),
    }
}

/// Refusal 2, for the lower of the walk's fault and the DER faults of the whole
/// input. Where the walk's fault is in DER, all before it was sound.
#[cold]
fn refused(fault: Fault, message: &[u8]) -> Refused {
    let fault = match fault.rule {
        Rule::Grammar => {
            check_all(Elements::of(message)).map_or_else(|other| fault.min(other), |()| fault)
        }
        _ => fault,
    };
    Refused {
        number: 2,
        offset: fault.offset,
        rule: fault.rule as u8,
    }
}
