//! The independent writer: an order and what is given with it, as the library is
//! handed them, to a CMP message in DER.
//!
//! It is written from the papers (02, M-101; 01, "The parts of a message") and
//! shares no code with the proved writer. Given parts are judged by the
//! independent reader's rules.

mod judge;
mod message;
mod order;
#[cfg(test)]
mod tests;

pub use judge::{Field, Misfit, Why};
pub use order::{Part, PARTS};

use crate::limits::MESSAGE_LIMIT;
use message::{Counter, Message, Placed};
use order::{Order, Parts, ORDER_BYTES};

/// Why nothing is written, the lowest first.
#[derive(Clone, Copy, Debug, PartialEq, Eq, PartialOrd, Ord)]
pub enum Unwritten {
    OverLimit,
    BufferTooShort,
    Misfit(Misfit),
}

impl Unwritten {
    /// The number of the refusal.
    pub fn number(self) -> u8 {
        match self {
            Unwritten::OverLimit => 34,
            Unwritten::BufferTooShort => 35,
            Unwritten::Misfit(_) => 36,
        }
    }
}

/// Writes the message into the buffer and gives its size. "The buffer then as
/// before; otherwise only the result's bytes change."
pub fn write(
    order: &[u8; ORDER_BYTES],
    version: u32,
    given: &[u64; 2 * PARTS.len()],
    source: &[u8],
    buffer: &mut [u8],
) -> Result<usize, Unwritten> {
    let message = Message::of(order, version, given, source);
    let size = message.size();
    if size > MESSAGE_LIMIT {
        return Err(Unwritten::OverLimit);
    }
    let place = buffer.get_mut(..size).ok_or(Unwritten::BufferTooShort)?;
    message.judge(given, source).map_err(Unwritten::Misfit)?;
    message.put(&mut Placed::before_the_end(place));
    Ok(size)
}

/// How long the message would be, whether or not it is written, and what of it
/// does not fit.
pub fn size_and_misfit(
    order: &[u8; ORDER_BYTES],
    version: u32,
    given: &[u64; 2 * PARTS.len()],
    source: &[u8],
) -> (usize, Option<Misfit>) {
    let message = Message::of(order, version, given, source);
    (message.size(), message.judge(given, source).err())
}

impl<'a> Message<'a> {
    fn of(
        order: &'a [u8; ORDER_BYTES],
        version: u32,
        given: &[u64; 2 * PARTS.len()],
        source: &'a [u8],
    ) -> Message<'a> {
        Message {
            order: Order::of(order),
            version,
            parts: Parts::of(given, source),
        }
    }

    fn size(&self) -> usize {
        let mut counter = Counter(0);
        self.put(&mut counter);
        counter.0
    }

    fn judge(&self, given: &[u64; 2 * PARTS.len()], source: &[u8]) -> Result<(), Misfit> {
        judge::order(&self.order)?;
        judge::parts(self, given, source)
    }
}
