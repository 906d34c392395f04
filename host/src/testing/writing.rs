//! Messages to be written: by the library for what an end decided, as a host
//! would, and calls of any bytes and numbers, for both writers.

use super::der::{hex, Node};
use super::messages::{algorithm, certificate, free_text, name, request_message};
use crate::ends::{CertHash, Nonce, Outgoing, TransactionId};
use crate::independent::writer::{self, Misfit, Part, Unwritten};
use crate::library::{self, GIVEN};
use crate::{write, Given, OUTGOING_BYTES};
use std::sync::LazyLock;

/// The kinds that are written.
pub const KINDS: [u8; 10] = [0, 1, 2, 3, 4, 7, 8, 19, 23, 24];

/// A call, but for the buffer.
#[derive(Clone, Debug, PartialEq, Eq)]
pub struct Call {
    pub outgoing: [u8; OUTGOING_BYTES],
    pub version: u32,
    pub given: [u64; GIVEN],
    pub source: Vec<u8>,
}

impl Call {
    pub fn new(outgoing: &Outgoing, given: &Given) -> Call {
        let (source, places) = given.laid_out();
        Call {
            outgoing: outgoing.to_bytes(),
            version: given.version as u32,
            given: places,
            source,
        }
    }

    /// The number that the library gives.
    pub fn by_library(&self, buffer: &mut [u8]) -> u64 {
        library::write(
            &self.outgoing,
            self.version,
            &self.given,
            &self.source,
            buffer,
        )
    }

    pub fn independently(&self, buffer: &mut [u8]) -> Result<usize, Unwritten> {
        writer::write(
            &self.outgoing,
            self.version,
            &self.given,
            &self.source,
            buffer,
        )
    }

    /// The size that the message would have, and what does not fit.
    pub fn size_and_misfit(&self) -> (usize, Option<Misfit>) {
        writer::size_and_misfit(&self.outgoing, self.version, &self.given, &self.source)
    }

    /// The bytes of a part, which lies in the source; none if it is absent.
    pub fn part(&self, part: Part) -> Option<&[u8]> {
        let [start, len] = part.span(&self.given).map(|number| number as usize);
        (start > 0).then(|| &self.source[start..][..len])
    }

    /// Puts a part elsewhere.
    pub fn set(&mut self, part: Part, span: [u64; 2]) {
        let at = 2 * part as usize;
        self.given[at..at + 2].copy_from_slice(&span);
    }
}

/// An order of this kind with all that the kind has, as the ends give it.
pub fn order(kind: u8) -> Outgoing {
    let carries = |kinds: &[u8]| kinds.contains(&kind);
    Outgoing {
        kind,
        id: TransactionId([0x11; 16]),
        sender_nonce: Nonce([0x22; 16]),
        recip_nonce: (!carries(&[0, 2, 4, 7])).then_some(Nonce([0x33; 16])),
        status: match kind {
            23 => Some(2),
            _ => carries(&[1, 3, 8, 24]).then_some(0),
        },
        hash: carries(&[24]).then_some(CertHash([0xAB; 32])),
        failure: carries(&[23]).then_some(13),
        number: carries(&[1, 3, 8, 24]).then_some(0),
    }
}

/// The elements that a host gives, in DER.
pub struct Elements {
    pub name: Vec<u8>,
    pub algorithm: Vec<u8>,
    pub free_text: Vec<u8>,
    pub general_info: Vec<u8>,
    pub request: Vec<u8>,
    pub certificate: Vec<u8>,
}

impl Elements {
    pub fn new() -> Elements {
        Elements {
            name: name().encode(),
            algorithm: algorithm(false).encode(),
            free_text: free_text(2).encode(),
            general_info: Node::sequence(vec![algorithm(false), algorithm(true)]).encode(),
            request: request_message(0, false).encode(),
            certificate: certificate().encode(),
        }
    }

    /// As little as an order of this kind needs.
    pub fn least(&self, outgoing: &Outgoing) -> Given<'_> {
        let has_certificate = matches!(outgoing.kind, 1 | 3 | 8) && outgoing.status == Some(0);
        Given {
            request: matches!(outgoing.kind, 0 | 2 | 4 | 7).then_some(&self.request[..]),
            certificate: has_certificate.then_some(&self.certificate[..]),
            ..Given::new(2, &self.name, &self.name)
        }
    }

    /// All that there is room for.
    pub fn all(&self, outgoing: &Outgoing) -> Given<'_> {
        Given {
            message_time: Some(b"20261115120000Z"),
            protection_alg: Some(&self.algorithm),
            sender_kid: Some(&[0xC2, 0xC2]),
            recip_kid: Some(&[0xC3]),
            free_text: Some(&self.free_text),
            general_info: Some(&self.general_info),
            protection: Some(&[0x00, 0x5A, 0x00]),
            ..self.least(outgoing)
        }
    }
}

impl Default for Elements {
    fn default() -> Self {
        Elements::new()
    }
}

/// The message for what an end gave to be sent, written by the library: in
/// version 2, with a request or a certificate where there is one. Its protection
/// says nothing.
pub fn written(outgoing: &Outgoing) -> Vec<u8> {
    written_in(2, outgoing)
}

/// The same in any version.
pub fn written_in(version: i32, outgoing: &Outgoing) -> Vec<u8> {
    static ELEMENTS: LazyLock<Elements> = LazyLock::new(Elements::new);
    let given = Given {
        version,
        protection_alg: Some(&ELEMENTS.algorithm),
        protection: Some(&[0x00, 0x5A, 0x00]),
        ..ELEMENTS.least(outgoing)
    };
    // More than any message of these has.
    let mut buffer = vec![0; 512];
    let size = write(outgoing, &given, &mut buffer).expect("the ends' orders can be written");
    buffer.truncate(size);
    buffer
}

/// The call that writes the sample message, W.
pub fn sample() -> Call {
    let name = hex("A4 02 30 00");
    let given = Given {
        protection_alg: Some(&hex("30 0B 06 09 2A 86 48 86 F6 7D 07 42 0D")),
        protection: Some(&hex("00 5A")),
        ..Given::new(2, &name, &name)
    };
    Call::new(&order(24), &given)
}
