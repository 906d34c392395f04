//! The machine's `openssl`, run in a folder of its own with a small authority.

use std::env;
use std::fs;
use std::io::ErrorKind;
use std::path::PathBuf;
use std::process::{self, Command};
use std::sync::atomic::{AtomicUsize, Ordering};

/// Enough of a configuration for `openssl req`, whatever the machine has.
const CONFIGURATION: &str = "[req]\ndistinguished_name = name\n[name]\n";

/// A folder with the authority's key and certificate (`ca`), gone when it is
/// dropped.
pub struct Folder {
    path: PathBuf,
}

impl Folder {
    /// None where the machine has no `openssl cmp` with this option.
    pub fn set_up(option: &str) -> Option<Folder> {
        let help = Command::new("openssl").args(["cmp", "-help"]).output();
        let help = help.ok()?;
        let text = [help.stdout, help.stderr].concat();
        if !String::from_utf8_lossy(&text).contains(option) {
            return None;
        }
        let folder = Folder { path: fresh() };
        folder.write("openssl.cnf", CONFIGURATION.as_bytes());
        folder.key("ca");
        folder.run("req -x509 -new -key ca.key -subj /CN=ca -days 30 -out ca.crt");
        Some(folder)
    }

    /// A new key, of elliptic curves.
    pub fn key(&self, name: &str) {
        self.run(&format!(
            "genpkey -algorithm EC -pkeyopt ec_paramgen_curve:P-256 -out {name}.key"
        ));
    }

    pub fn path(&self, name: &str) -> PathBuf {
        self.path.join(name)
    }

    pub fn read(&self, name: &str) -> Vec<u8> {
        fs::read(self.path(name)).expect("openssl has written it")
    }

    pub fn write(&self, name: &str, bytes: &[u8]) {
        fs::write(self.path(name), bytes).expect("the folder is ours");
    }

    /// `openssl` with these words, not started yet.
    pub fn command(&self, words: &str) -> Command {
        let mut command = Command::new("openssl");
        command
            .args(words.split_whitespace())
            .current_dir(&self.path)
            .env("OPENSSL_CONF", self.path("openssl.cnf"));
        command
    }

    /// What the command prints; it has to succeed.
    pub fn run(&self, words: &str) -> Vec<u8> {
        let output = self.command(words).output().expect("it was there before");
        let complaints = String::from_utf8_lossy(&output.stderr);
        assert!(output.status.success(), "{complaints}");
        output.stdout
    }
}

impl Drop for Folder {
    fn drop(&mut self) {
        let _ = fs::remove_dir_all(&self.path);
    }
}

/// A new folder that nobody else uses.
fn fresh() -> PathBuf {
    static TRIED: AtomicUsize = AtomicUsize::new(0);
    loop {
        let number = TRIED.fetch_add(1, Ordering::Relaxed);
        let name = format!("duskstall-openssl-{}-{number}", process::id());
        let folder = env::temp_dir().join(name);
        match fs::create_dir(&folder) {
            Ok(()) => return folder,
            Err(error) => assert_eq!(error.kind(), ErrorKind::AlreadyExists, "{error}"),
        }
    }
}
