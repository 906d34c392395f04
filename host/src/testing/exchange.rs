//! Messages of an exchange between a board and the registrar, encoded without the
//! library and with any part changed.

use super::der::Node;
use super::messages::{self, algorithm, name};
use super::random::Random;
use crate::ends::Outgoing;

/// What a message is made of. Every field may be anything; what its kind has
/// no place for is left out.
#[derive(Clone, Debug, PartialEq, Eq)]
pub struct Parts {
    pub kind: u8,
    /// pvno.
    pub version: i64,
    pub protection_alg: bool,
    pub protection: bool,
    /// The next three may have any length.
    pub id: Option<Vec<u8>>,
    pub sender_nonce: Option<Vec<u8>>,
    pub recip_nonce: Option<Vec<u8>>,
    /// How many requests, responses or certificate statuses, all the same.
    pub entries: usize,
    /// certReqId.
    pub number: i64,
    /// Absent in a certConf only: elsewhere it has to be there and is then 0.
    pub status: Option<i64>,
    /// certHash, of any length.
    pub hash: Vec<u8>,
    pub hash_alg: bool,
    pub certificate: Certificate,
}

/// What a response brings.
#[derive(Clone, Copy, Debug, PartialEq, Eq)]
pub enum Certificate {
    Nothing,
    Plain,
    Encrypted,
}

/// The request that carries no certReqId.
pub const P10CR: u8 = 4;

/// The certReqId that a record of this kind takes, seldom that of the others.
pub fn some_number(random: &mut Random, kind: u8) -> i64 {
    let is_p10cr = kind == P10CR;
    match is_p10cr != random.once_in(8) {
        true => -1,
        false => 0,
    }
}

/// certReqId: a response and a certConf are told theirs, the host's own request
/// has 0.
fn number_of(outgoing: &Outgoing) -> i64 {
    match outgoing.kind {
        1 | 3 | 8 | 24 => outgoing.number.expect("it carries a certReqId").into(),
        _ => 0,
    }
}

impl Parts {
    /// The message that this is to become, in version 2. A response brings a
    /// certificate unless its status is 2. Fails for a response or a certConf
    /// without a certReqId.
    pub fn of(outgoing: &Outgoing) -> Parts {
        let status = outgoing.status.map(|status| i64::from(status as i32));
        Parts {
            kind: outgoing.kind,
            version: 2,
            protection_alg: true,
            protection: true,
            id: Some(outgoing.id.0.to_vec()),
            sender_nonce: Some(outgoing.sender_nonce.0.to_vec()),
            recip_nonce: outgoing.recip_nonce.map(|nonce| nonce.0.to_vec()),
            entries: 1,
            number: number_of(outgoing),
            status,
            hash: outgoing.hash.map_or(Vec::new(), |hash| hash.0.to_vec()),
            hash_alg: false,
            certificate: match status {
                Some(2) => Certificate::Nothing,
                _ => Certificate::Plain,
            },
        }
    }

    pub fn encode(&self) -> Vec<u8> {
        self.node().encode()
    }

    /// The message as a tree, which a test may damage.
    pub fn node(&self) -> Node {
        let rest = if self.protection {
            vec![messages::protection()]
        } else {
            Vec::new()
        };
        messages::message(self.header(), self.body(), rest)
    }

    fn header(&self) -> Node {
        let mut fields = vec![Node::integer(self.version), name(), name()];
        if self.protection_alg {
            fields.push(Node::explicit(1, algorithm(false)));
        }
        let named = [&self.id, &self.sender_nonce, &self.recip_nonce];
        for (tag, bytes) in (4..).zip(named) {
            if let Some(bytes) = bytes {
                fields.push(Node::explicit(tag, Node::octets(bytes)));
            }
        }
        Node::sequence(fields)
    }

    fn body(&self) -> Node {
        let entries = |entry: Node| vec![entry; self.entries];
        let inside = match self.kind {
            0 | 2 | 7 => Node::sequence(entries(messages::request_message(self.number, false))),
            1 | 3 | 8 => messages::responses(false, entries(self.response())),
            19 => Node::null(),
            23 => Node::sequence(vec![self.status_info()]),
            24 => Node::sequence(entries(self.cert_status())),
            _ => Node::sequence(vec![Node::integer(self.number)]),
        };
        Node::explicit(self.kind, inside)
    }

    fn status_info(&self) -> Node {
        messages::status_info(self.status.unwrap_or(0), false)
    }

    fn response(&self) -> Node {
        let mut parts = vec![Node::integer(self.number), self.status_info()];
        match self.certificate {
            Certificate::Nothing => {}
            Certificate::Plain => parts.push(messages::key_pair(0, false)),
            Certificate::Encrypted => parts.push(messages::key_pair(1, false)),
        }
        Node::sequence(parts)
    }

    fn cert_status(&self) -> Node {
        let mut parts = vec![Node::octets(&self.hash), Node::integer(self.number)];
        if self.status.is_some() {
            parts.push(self.status_info());
        }
        if self.hash_alg {
            parts.push(Node::explicit(0, algorithm(true)));
        }
        Node::sequence(parts)
    }
}

#[cfg(test)]
mod tests {
    use super::*;
    use crate::ends::{FreshNonce, Nonce, TransactionId};
    use crate::testing::answers::plain;

    fn of(kind: u8, number: Option<i32>) -> Parts {
        let (id, nonce) = (TransactionId::default(), FreshNonce([0; 16]));
        Parts::of(&Outgoing {
            number,
            ..plain(kind, id, nonce, Nonce::default())
        })
    }

    #[test]
    fn cert_req_id_is_the_one_given() {
        for kind in [1, 3, 8, 24] {
            assert_eq!(of(kind, Some(-1)).number, -1);
            assert_eq!(of(kind, Some(0)).number, 0);
        }
        for kind in [0, 2, 4, 7, 19, 23] {
            assert_eq!(of(kind, None).number, 0);
        }
    }

    #[test]
    #[should_panic(expected = "it carries a certReqId")]
    fn response_without_cert_req_id() {
        of(3, None);
    }

    #[test]
    #[should_panic(expected = "it carries a certReqId")]
    fn cert_conf_without_cert_req_id() {
        of(24, None);
    }
}
