//! Messages written by the compiled library, and their protection.

use crate::answers;
use crate::ends::Outgoing;
use crate::library::{self, GIVEN};
use crate::limits::MESSAGE_LIMIT;
use crate::refusal::Refusal;

/// What the host gives for a message beside what is to be sent: pvno, and parts
/// in DER. "Element" means with tag and length, "content" without.
#[derive(Clone, Copy, Debug, PartialEq, Eq)]
pub struct Given<'a> {
    /// pvno.
    pub version: i32,
    /// A GeneralName: element.
    pub sender: &'a [u8],
    /// A GeneralName: element.
    pub recipient: &'a [u8],
    /// Content of the GeneralizedTime.
    pub message_time: Option<&'a [u8]>,
    /// AlgorithmIdentifier: element.
    pub protection_alg: Option<&'a [u8]>,
    /// Content of the OCTET STRING.
    pub sender_kid: Option<&'a [u8]>,
    /// Content of the OCTET STRING.
    pub recip_kid: Option<&'a [u8]>,
    /// PKIFreeText: element.
    pub free_text: Option<&'a [u8]>,
    /// SEQUENCE of InfoTypeAndValue: element.
    pub general_info: Option<&'a [u8]>,
    /// Content of the BIT STRING: a byte that says how many bits of the last are
    /// unused, and the bits. Not what [`Reading::protection`](crate::Reading::protection)
    /// names, which is the whole `[0]` around it.
    pub protection: Option<&'a [u8]>,
    /// In an ir, cr or kur the one CertReqMsg, in a p10cr the
    /// CertificationRequest: element.
    pub request: Option<&'a [u8]>,
    /// In an ip, cp or kup with status 0: element.
    pub certificate: Option<&'a [u8]>,
}

impl<'a> Given<'a> {
    /// Without what may be absent.
    pub fn new(version: i32, sender: &'a [u8], recipient: &'a [u8]) -> Given<'a> {
        Given {
            version,
            sender,
            recipient,
            message_time: None,
            protection_alg: None,
            sender_kid: None,
            recip_kid: None,
            free_text: None,
            general_info: None,
            protection: None,
            request: None,
            certificate: None,
        }
    }

    /// All parts, in the order of the library's list.
    fn parts(&self) -> [Option<&'a [u8]>; GIVEN / 2] {
        [
            Some(self.sender),
            Some(self.recipient),
            self.message_time,
            self.protection_alg,
            self.sender_kid,
            self.recip_kid,
            self.free_text,
            self.general_info,
            self.protection,
            self.request,
            self.certificate,
        ]
    }

    /// The parts one after the other, and where each lies, as the library's call
    /// takes them. None lies at 0, where a part would be absent.
    pub fn laid_out(&self) -> (Vec<u8>, [u64; GIVEN]) {
        let mut source = vec![0];
        let mut given = [0; GIVEN];
        for (place, part) in given.chunks_mut(2).zip(self.parts()) {
            if let Some(part) = part {
                place.copy_from_slice(&[source.len() as u64, part.len() as u64]);
                source.extend_from_slice(part);
            }
        }
        (source, given)
    }
}

/// Writes a message, and gives its size: it is the buffer's first bytes, and the
/// others are as before. Refused by 34, 35 and 36, with the buffer as before; by 36
/// also where the library's bytes have no way to say the order, as of a certConf
/// without a hash. No message is longer than [`MESSAGE_LIMIT`](crate::MESSAGE_LIMIT).
/// Without protection it is what protection is made of, see [`write_protected`].
///
/// ```
/// use duskstall_host::{write, EndEntity, FreshNonce, Given, TransactionId};
///
/// let (_, request) = EndEntity::start(4, TransactionId([1; 16]), FreshNonce([2; 16]))?;
/// let name = [0xA4, 0x02, 0x30, 0x00]; // directoryName, with nothing in it
/// let given = Given { request: Some(&[0x30, 0x00]), ..Given::new(2, &name, &name) };
///
/// let mut buffer = [0; 100];
/// let size = write(&request, &given, &mut buffer)?;
/// assert_eq!(buffer[..7], [0x30, 0x39, 0x30, 0x33, 0x02, 0x01, 0x02]);
/// assert_eq!(buffer[55..size], [0xA4, 0x02, 0x30, 0x00]);
///
/// let refused = write(&request, &given, &mut buffer[..size - 1]);
/// assert_eq!(refused.map_err(|refusal| refusal.number), Err(35));
/// let refused = write(&request, &Given::new(2, &name, &name), &mut buffer);
/// assert_eq!(refused.map_err(|refusal| refusal.number), Err(36));
/// # Ok::<(), duskstall_host::Refusal>(())
/// ```
pub fn write(outgoing: &Outgoing, given: &Given, buffer: &mut [u8]) -> Result<usize, Refusal> {
    let order = outgoing.to_bytes();
    if answers::outgoing(&order) != Some(*outgoing) {
        return Err(refused(36));
    }
    let (source, places) = given.laid_out();
    let version = given.version as u32;
    written(library::write(&order, version, &places, &source, buffer))
}

fn refused(number: u8) -> Refusal {
    Refusal {
        number,
        bit: None,
        fault: None,
    }
}

/// Size and refusal of the library's number.
fn written(answer: u64) -> Result<usize, Refusal> {
    match (answer >> 32, answer as u32) {
        (0, size) => usize::try_from(size).map_err(|_| Refusal::OUTSIDE_CONTRACT),
        (number @ 34..=36, 0) => Err(refused(number as u8)),
        _ => Err(Refusal::OUTSIDE_CONTRACT),
    }
}

/// Writes a message and protects it: `protect` is handed the message as it is
/// written without protection, which is the ProtectedPart in DER (RFC 9810 5.1.3),
/// the SEQUENCE of header and body. It gives the protection in whole bytes. The
/// algorithm's name is in what is given; a protection there is replaced. Gives the
/// size, or a refusal as [`write()`] does, with the buffer as before: it never holds
/// the message without protection.
///
/// ```
/// use duskstall_host::{compiled, write_protected, EndEntity, FreshNonce, Given, TransactionId};
///
/// let (_, request) = EndEntity::start(4, TransactionId([1; 16]), FreshNonce([2; 16]))?;
/// let name = [0xA4, 0x02, 0x30, 0x00];
/// let given = Given {
///     protection_alg: Some(&[0x30, 0x03, 0x06, 0x01, 0x2A]),
///     request: Some(&[0x30, 0x00]),
///     ..Given::new(2, &name, &name)
/// };
/// let sum = |part: &[u8]| vec![part.iter().fold(0, |sum, byte| sum ^ byte)]; // no protection
///
/// let mut buffer = [0; 100];
/// let size = write_protected(&request, &given, &mut buffer, sum)?;
/// let reading = compiled::read(&buffer[..size]).expect("it is a message");
/// assert_eq!(reading.protection.start + reading.protection.len, size);
/// assert_eq!(buffer[reading.protection.start..size - 1], [0xA0, 0x04, 0x03, 0x02, 0x00]);
/// # Ok::<(), duskstall_host::Refusal>(())
/// ```
pub fn write_protected(
    outgoing: &Outgoing,
    given: &Given,
    buffer: &mut [u8],
    protect: impl FnOnce(&[u8]) -> Vec<u8>,
) -> Result<usize, Refusal> {
    let plain = Given {
        protection: None,
        ..*given
    };
    // As much room, so that the same is refused.
    let mut part = vec![0; buffer.len().min(MESSAGE_LIMIT)];
    let size = write(outgoing, &plain, &mut part)?;
    let bits = protect(&part[..size]);
    let protection = [&[0], &bits[..]].concat();
    let protected = Given {
        protection: Some(&protection),
        ..plain
    };
    write(outgoing, &protected, buffer)
}

#[cfg(test)]
mod tests {
    use super::*;
    use crate::testing::writing::{order, Elements};
    use crate::CertHash;

    /// The bytes have no flag for a hash, and 255 for no bit.
    #[test]
    fn orders_that_bytes_cannot_say() {
        let elements = Elements::new();
        let number = |outgoing: Outgoing| {
            let written = write(&outgoing, &elements.all(&outgoing), &mut [0; 512]);
            written.map_err(|refusal| refusal.number)
        };
        for kind in [19, 23, 24] {
            assert!(number(order(kind)).is_ok());
        }
        let unhashed = Outgoing {
            hash: None,
            ..order(24)
        };
        let hashed = Outgoing {
            hash: Some(CertHash([0; 32])),
            ..order(19)
        };
        let no_such_bit = Outgoing {
            failure: Some(255),
            ..order(23)
        };
        for outgoing in [unhashed, hashed, no_such_bit] {
            assert_eq!(number(outgoing), Err(36));
        }
    }

    #[test]
    fn size_and_refusal_of_a_number() {
        assert_eq!(written(16_384), Ok(16_384));
        for number in 34..=36 {
            let refusal = written(number << 32).expect_err("it is refused");
            assert_eq!(u64::from(refusal.number), number);
            assert_eq!(written(number << 32 | 1), Err(Refusal::OUTSIDE_CONTRACT));
        }
        for number in [1, 33, 37, 252] {
            assert_eq!(written(number << 32), Err(Refusal::OUTSIDE_CONTRACT));
        }
    }
}
