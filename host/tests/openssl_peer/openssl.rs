//! OpenSSL's CMP client and its mock server, both in one process.

use duskstall_host::testing::openssl::Folder;
use std::fs;

/// The client's and the server's options for messages that are signed, and for
/// messages under a password.
pub const PROTECTIONS: [&str; 2] = [
    "-cert board.crt -key board.key -trusted ca.crt \
     -srv_cert server.crt -srv_key server.key -srv_trusted ca.crt",
    "-ref board-7 -secret pass:board-secret -srv_ref board-7 -srv_secret pass:board-secret",
];

/// The messages of one transaction, in the order they were sent.
pub struct Transaction {
    pub requests: Vec<Vec<u8>>,
    pub responses: Vec<Vec<u8>>,
}

/// A folder with the keys and certificates of all who take part.
pub struct OpenSsl(Folder);

impl OpenSsl {
    /// None where the machine has no `openssl` with a CMP mock server.
    pub fn set_up() -> Option<OpenSsl> {
        let folder = Folder::set_up("-use_mock_srv")?;
        for name in ["server", "board", "new"] {
            folder.key(name);
            folder.run(&format!(
                "req -new -key {name}.key -subj /CN={name} -out {name}.csr"
            ));
            folder.run(&format!(
                "x509 -req -in {name}.csr -CA ca.crt -CAkey ca.key -CAcreateserial \
                 -days 30 -out {name}.crt"
            ));
        }
        Some(OpenSsl(folder))
    }

    /// The SHA-256 of the certificate that the mock server issues.
    pub fn hash(&self) -> Vec<u8> {
        self.0.run("x509 -in new.crt -outform DER -out new.der");
        self.0.run("dgst -sha256 -binary new.der")
    }

    /// An enrolment that the client calls a success: its request and certConf,
    /// and the response and pkiConf of the mock server.
    pub fn enrol(&self, command: &str, protection: &str) -> Transaction {
        self.0.run(&format!(
            "cmp -use_mock_srv -rsp_cert new.crt -newkey new.key -subject /CN=new -recipient /CN=ca \
             -out_trusted ca.crt -certout out.crt \
             -reqout req1.der,req2.der -rspout rsp1.der,rsp2.der {command} {protection}"
        ));
        Transaction {
            requests: ["req1.der", "req2.der"].map(|file| self.file(file)).into(),
            responses: ["rsp1.der", "rsp2.der"].map(|file| self.file(file)).into(),
        }
    }

    /// Takes a file away, so that none is read twice.
    fn file(&self, name: &str) -> Vec<u8> {
        let bytes = self.0.read(name);
        fs::remove_file(self.0.path(name)).expect("it is ours");
        bytes
    }
}
