//! OpenSSL's CMP client and its mock server as processes of their own, in a
//! folder with keys and a small authority.

use super::protection::{REFERENCE, SECRET};
use duskstall_host::testing::openssl::Folder;
use std::fs::{self, File};
use std::process::{Child, ExitStatus};
use std::thread;
use std::time::{Duration, Instant};

/// How long anything is waited for.
pub const PATIENCE: Duration = Duration::from_secs(10);

/// A folder with an authority (`ca`), the board's new key, its PKCS #10 and a
/// certificate of it.
pub struct OpenSsl(Folder);

impl OpenSsl {
    /// None where the machine has no `openssl` with CMP over HTTP.
    pub fn set_up() -> Option<OpenSsl> {
        let openssl = OpenSsl(Folder::set_up("-port")?);
        openssl.0.key("new");
        (openssl.0).run("req -new -key new.key -subj /CN=new -outform DER -out new.csr");
        let certificate = openssl.issue(&openssl.read("new.csr"));
        openssl.0.write("new.crt", &certificate);
        Some(openssl)
    }

    /// The authority's certificate for a PKCS #10.
    pub fn issue(&self, request: &[u8]) -> Vec<u8> {
        self.0.write("asked.csr", request);
        self.0.run(
            "x509 -req -inform DER -in asked.csr -CA ca.crt -CAkey ca.key -CAcreateserial \
             -days 30 -outform DER -out issued.crt",
        );
        self.read("issued.crt")
    }

    /// The new key's signature, by ECDSA with SHA-256.
    pub fn sign(&self, bytes: &[u8]) -> Vec<u8> {
        self.0.write("signed", bytes);
        self.0
            .run("dgst -sha256 -sign new.key -out signature signed");
        self.read("signature")
    }

    /// The client enrols at this port of loopback, as the command says. It writes
    /// `got.crt` if all went well.
    pub fn client(&self, command: &str, secret: &str, port: u16) -> Running {
        let _ = fs::remove_file(self.0.path("got.crt"));
        self.start(&format!(
            "cmp -server 127.0.0.1:{port} -path pkix/ -no_proxy 127.0.0.1 \
             -ref {REFERENCE} -secret pass:{secret} -digest sha256 -mac hmacWithSHA256 \
             -newkey new.key -subject /CN=new -recipient /CN=ca -out_trusted ca.crt \
             -certform DER -certout got.crt -msg_timeout 10 -total_timeout 10 {command}"
        ))
    }

    /// The mock server, which issues `new.crt`, and its port.
    pub fn server(&self) -> (Running, u16) {
        let mut server = self.start(&format!(
            "cmp -port 0 -srv_ref {REFERENCE} -srv_secret pass:{SECRET} -rsp_cert new.crt"
        ));
        // It says where it listens: ACCEPT [::]:40123 PID=77.
        let port = until(|| {
            let log = self.log();
            assert_eq!(server.ended(), None, "{log}");
            let (_, place) = log.split_once("ACCEPT ")?;
            let (place, _) = place.split_once(char::is_whitespace)?;
            place.rsplit(':').next()?.parse().ok()
        });
        (server, port)
    }

    pub fn read(&self, name: &str) -> Vec<u8> {
        self.0.read(name)
    }

    /// Whether there is such a file.
    pub fn has(&self, name: &str) -> bool {
        self.0.path(name).exists()
    }

    /// All that the last client or server has printed.
    pub fn log(&self) -> String {
        String::from_utf8_lossy(&self.read("log")).into()
    }

    /// The errors among it.
    pub fn complaint(&self) -> String {
        let log = self.log();
        let lines = log.lines().map(|line| line.split_once("CMP error: "));
        let words: Vec<_> = lines.flatten().map(|(_, words)| words).collect();
        words.join(", ")
    }

    fn start(&self, words: &str) -> Running {
        let log = File::create(self.0.path("log")).expect("the folder is ours");
        let same = log.try_clone().expect("it is open");
        let mut command = self.0.command(words);
        let child = command.stdout(log).stderr(same).spawn();
        Running(child.expect("it was there before"))
    }
}

/// A process, killed when it is dropped.
pub struct Running(Child);

impl Running {
    /// How it ended, if it has.
    pub fn ended(&mut self) -> Option<ExitStatus> {
        self.0.try_wait().expect("it is our child")
    }
}

impl Drop for Running {
    fn drop(&mut self) {
        let _ = self.0.kill();
        let _ = self.0.wait();
    }
}

/// Asks again and again until there is an answer.
pub fn until<T>(mut ask: impl FnMut() -> Option<T>) -> T {
    let end = Instant::now() + PATIENCE;
    loop {
        if let Some(answer) = ask() {
            return answer;
        }
        assert!(Instant::now() < end, "waited too long");
        thread::sleep(Duration::from_millis(2));
    }
}
