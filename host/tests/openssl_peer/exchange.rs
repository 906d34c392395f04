//! The messages of a transaction that OpenSSL's client and server made.

use duskstall_host::testing::received::Received;
use duskstall_host::CertHash;

/// The messages of a transaction, in the order they were sent.
pub struct Exchange {
    pub requests: Vec<Received>,
    pub responses: Vec<Received>,
}

impl Exchange {
    pub fn read(requests: Vec<Vec<u8>>, responses: Vec<Vec<u8>>) -> Exchange {
        let read = |messages: Vec<Vec<u8>>| messages.into_iter().map(Received::read).collect();
        Exchange {
            requests: read(requests),
            responses: read(responses),
        }
    }

    /// Request, response, certConf and pkiConf of an enrolment.
    pub fn enrolment(&self) -> [&Received; 4] {
        match (&self.requests[..], &self.responses[..]) {
            ([request, cert_conf], [response, pkiconf]) => [request, response, cert_conf, pkiconf],
            _ => panic!("an enrolment has two requests and two responses"),
        }
    }

    /// The response that brings a certificate, with its hash.
    pub fn granting(&self) -> Option<(&Received, CertHash)> {
        self.responses
            .iter()
            .find_map(|response| Some((response, response.issued()?)))
    }
}
