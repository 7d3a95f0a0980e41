//! Ed25519 (RFC 8032) by what the machine has: the `openssl` command, else the package `cryptography` of python3. Where it
//! has neither, signatures are only marks from which the verdicts can be told.

use std::collections::BTreeMap;
use std::io::{BufRead, BufReader, Write};
use std::path::PathBuf;
use std::process::{Child, ChildStdin, ChildStdout, Command, Output, Stdio};
use std::sync::atomic::{AtomicUsize, Ordering};
use std::{env, fs, process};

use paper::hex;

use super::sha256::digest;

/// A private key.
pub type Seed = [u8; 32];

/// A public key.
pub type Public = [u8; 32];

/// A signature.
pub type Signature = [u8; 64];

/// Makes and verifies signatures. An error means that what the machine has could not be used.
trait Scheme: Send {
    /// What the progress line says of it.
    fn name(&self) -> &'static str;

    fn public(&mut self, seed: &Seed) -> Result<Public, String>;

    fn sign(&mut self, seed: &Seed, message: &[u8]) -> Result<Signature, String>;

    fn verifies(&mut self, public: &Public, message: &[u8], signature: &Signature) -> Result<bool, String>;
}

/// Starts a scheme, if the machine has it.
type Start = fn() -> Result<Box<dyn Scheme>, String>;

/// A scheme, and what it has said already: to ask it again would be another process.
pub struct Signer {
    scheme: Box<dyn Scheme>,
    verdicts: BTreeMap<(Public, Vec<u8>, Signature), bool>,
}

impl Signer {
    /// The best that is at hand.
    pub fn at_hand() -> Signer {
        Signer::all().next().expect("marks are always at hand")
    }

    /// All that are at hand, the best first.
    pub fn all() -> impl Iterator<Item = Signer> {
        let starts: [Start; 3] = [
            || Ok(Box::new(OpenSsl::start()?)),
            || Ok(Box::new(Python::start()?)),
            || Ok(Box::new(Marks)),
        ];
        starts
            .into_iter()
            .filter_map(|start| start().ok())
            .map(|scheme| Signer {
                scheme,
                verdicts: BTreeMap::new(),
            })
    }

    /// What the progress line says of it.
    pub fn name(&self) -> &'static str {
        self.scheme.name()
    }

    /// The public key of a private one.
    pub fn public(&mut self, seed: &Seed) -> Public {
        self.scheme.public(seed).expect("the signer makes a public key")
    }

    /// The signature over a message.
    pub fn sign(&mut self, seed: &Seed, message: &[u8]) -> Signature {
        self.scheme.sign(seed, message).expect("the signer signs")
    }

    /// Whether a signature over a message verifies under a key.
    pub fn verifies(&mut self, public: &Public, message: &[u8], signature: &Signature) -> bool {
        let asked = (*public, message.to_vec(), *signature);
        let scheme = &mut self.scheme;
        let verdict = self.verdicts.entry(asked).or_insert_with(|| {
            let verdict = scheme.verifies(public, message, signature);
            verdict.expect("the signer verifies")
        });
        *verdict
    }
}

/// Whether a scheme is Ed25519: RFC 8032, section 7.1, test 2, and a message that was not signed.
fn is_ed25519(scheme: &mut impl Scheme) -> Result<(), String> {
    let seed = array("4ccd089b28ff96da9db6c346ec114e0f5b8a319f35aba624da8cf6ed4fb8a6fb");
    let public = array("3d4017c3e843895a92b70aa74d1b7ebc9c982ccf2ec4968cc0cd55f12af4660c");
    let signature = array(
        "92a009a9f0d4cab8720e820b5f642540a2b27b5416503f8fb3762223ebdb69da\
         085ac1e43e15996e458f3613d0f11d8c387b2eaeb4302aeeb00d291612bb0c00",
    );
    let is_so = scheme.public(&seed)? == public
        && scheme.sign(&seed, b"\x72")? == signature
        && scheme.verifies(&public, b"\x72", &signature)?
        && !scheme.verifies(&public, b"\x73", &signature)?;
    is_so.then_some(()).ok_or("not Ed25519".to_string())
}

/// The bytes of a text in hex that has so many.
fn array<const N: usize>(text: &str) -> [u8; N] {
    let bytes = hex::bytes(text).expect("hex");
    bytes.try_into().expect("so many bytes")
}

/// So many bytes, as a program said them.
fn exactly<const N: usize>(said: &[u8]) -> Result<[u8; N], String> {
    said.try_into()
        .map_err(|_| format!("{} bytes instead of {N}: {}", said.len(), said.escape_ascii()))
}

/// The `openssl` command, 3.0 or later: a process for each question.
struct OpenSsl {
    folder: Folder,
}

impl OpenSsl {
    /// PKCS #8 before the private key (RFC 8410).
    const PRIVATE: &[u8] = b"\x30\x2e\x02\x01\x00\x30\x05\x06\x03\x2b\x65\x70\x04\x22\x04\x20";

    /// SubjectPublicKeyInfo before the public key (RFC 8410).
    const PUBLIC: &[u8] = b"\x30\x2a\x30\x05\x06\x03\x2b\x65\x70\x03\x21\x00";

    fn start() -> Result<OpenSsl, String> {
        let mut openssl = OpenSsl { folder: Folder::new()? };
        is_ed25519(&mut openssl)?;
        Ok(openssl)
    }

    /// Runs the command in a folder that has these files.
    fn run(&self, words: &str, files: &[(&str, &[u8])]) -> Result<Output, String> {
        for (name, content) in files {
            fs::write(self.folder.path.join(name), content).map_err(|error| error.to_string())?;
        }
        Command::new("openssl")
            .args(words.split(' '))
            .current_dir(&self.folder.path)
            .stdin(Stdio::null())
            .output()
            .map_err(|error| error.to_string())
    }
}

impl Scheme for OpenSsl {
    fn name(&self) -> &'static str {
        "Ed25519 by the openssl command"
    }

    fn public(&mut self, seed: &Seed) -> Result<Public, String> {
        let key = [OpenSsl::PRIVATE, seed].concat();
        let output = self.run("pkey -inform DER -in key -pubout -outform DER", &[("key", &key)])?;
        let public = output.stdout.strip_prefix(OpenSsl::PUBLIC);
        exactly(public.unwrap_or(&output.stderr))
    }

    fn sign(&mut self, seed: &Seed, message: &[u8]) -> Result<Signature, String> {
        let key = [OpenSsl::PRIVATE, seed].concat();
        let files = [("key", &key[..]), ("message", message)];
        let output = self.run("pkeyutl -sign -keyform DER -inkey key -rawin -in message", &files)?;
        exactly(&output.stdout)
    }

    fn verifies(&mut self, public: &Public, message: &[u8], signature: &Signature) -> Result<bool, String> {
        let key = [OpenSsl::PUBLIC, public].concat();
        let words = "pkeyutl -verify -pubin -keyform DER -inkey key -rawin -in message -sigfile signature";
        let files = [("key", &key[..]), ("message", message), ("signature", signature)];
        let output = self.run(words, &files)?;
        let said = String::from_utf8_lossy(&[output.stdout, output.stderr].concat()).into_owned();
        match output.status.success() {
            true if said.contains("Verified Successfully") => Ok(true),
            false if said.contains("Verification Failure") => Ok(false),
            _ => Err(format!("openssl could not verify: {said}")),
        }
    }
}

/// A folder that is gone when it is no longer needed.
struct Folder {
    path: PathBuf,
}

impl Folder {
    fn new() -> Result<Folder, String> {
        static NEXT: AtomicUsize = AtomicUsize::new(0);
        let number = NEXT.fetch_add(1, Ordering::Relaxed);
        let path = env::temp_dir().join(format!("signed-shelf-{}-{number}", process::id()));
        fs::create_dir(&path).map_err(|error| format!("{}: {error}", path.display()))?;
        Ok(Folder { path })
    }
}

impl Drop for Folder {
    fn drop(&mut self) {
        // What is left in the folder for temporary files is no failure.
        let _ = fs::remove_dir_all(&self.path);
    }
}

/// The package `cryptography`: one process that answers line by line.
struct Python {
    child: Child,
    questions: Option<ChildStdin>,
    answers: BufReader<ChildStdout>,
}

impl Python {
    const SCRIPT: &str = r#"
import sys
from cryptography.exceptions import InvalidSignature
from cryptography.hazmat.primitives.asymmetric.ed25519 import Ed25519PrivateKey, Ed25519PublicKey
from cryptography.hazmat.primitives.serialization import Encoding, PublicFormat

def public(seed):
    return Ed25519PrivateKey.from_private_bytes(seed).public_key().public_bytes(Encoding.Raw, PublicFormat.Raw)

def sign(seed, message):
    return Ed25519PrivateKey.from_private_bytes(seed).sign(message)

def verifies(public, message, signature):
    try:
        Ed25519PublicKey.from_public_bytes(public).verify(signature, message)
        return b"\1"
    except InvalidSignature:
        return b"\0"

calls = {"public": public, "sign": sign, "verifies": verifies}
for line in sys.stdin:
    call, *words = line.split()
    print(calls[call](*map(bytes.fromhex, words)).hex(), flush=True)
"#;

    fn start() -> Result<Python, String> {
        let mut child = Command::new("python3")
            .args(["-c", Python::SCRIPT])
            .stdin(Stdio::piped())
            .stdout(Stdio::piped())
            .stderr(Stdio::null())
            .spawn()
            .map_err(|error| error.to_string())?;
        let answers = child.stdout.take().expect("the output was asked for");
        let mut python = Python {
            questions: child.stdin.take(),
            answers: BufReader::new(answers),
            child,
        };
        is_ed25519(&mut python)?;
        Ok(python)
    }

    fn ask(&mut self, call: &str, arguments: &[&[u8]]) -> Result<Vec<u8>, String> {
        let words: Vec<String> = arguments.iter().map(|bytes| hex::written(bytes)).collect();
        let questions = self.questions.as_mut().ok_or("python3 has ended")?;
        writeln!(questions, "{call} {}", words.join(" ")).map_err(|error| error.to_string())?;
        let mut answer = String::new();
        self.answers.read_line(&mut answer).map_err(|error| error.to_string())?;
        hex::bytes(answer.trim_end()).ok_or(format!("python3 says {answer}"))
    }
}

impl Scheme for Python {
    fn name(&self) -> &'static str {
        "Ed25519 by python3's cryptography"
    }

    fn public(&mut self, seed: &Seed) -> Result<Public, String> {
        exactly(&self.ask("public", &[seed])?)
    }

    fn sign(&mut self, seed: &Seed, message: &[u8]) -> Result<Signature, String> {
        exactly(&self.ask("sign", &[seed, message])?)
    }

    fn verifies(&mut self, public: &Public, message: &[u8], signature: &Signature) -> Result<bool, String> {
        let verdict: [u8; 1] = exactly(&self.ask("verifies", &[public, message, signature])?)?;
        Ok(verdict == [1])
    }
}

impl Drop for Python {
    fn drop(&mut self) {
        // Without questions it ends; if it has ended already, all the better.
        self.questions = None;
        let _ = self.child.wait();
    }
}

/// No signatures: a mark says under which key and over which message it was made, and so what the verdict is to be.
struct Marks;

impl Scheme for Marks {
    fn name(&self) -> &'static str {
        "verdicts given, for neither openssl nor python3's cryptography is at hand"
    }

    fn public(&mut self, seed: &Seed) -> Result<Public, String> {
        Ok(digest(seed))
    }

    fn sign(&mut self, seed: &Seed, message: &[u8]) -> Result<Signature, String> {
        Ok(mark(&self.public(seed)?, message))
    }

    fn verifies(&mut self, public: &Public, message: &[u8], signature: &Signature) -> Result<bool, String> {
        Ok(mark(public, message) == *signature)
    }
}

fn mark(public: &Public, message: &[u8]) -> Signature {
    let over = digest(message);
    let under = digest(&[&public[..], &over].concat());
    let mut mark = [0; 64];
    mark[..32].copy_from_slice(&under);
    mark[32..].copy_from_slice(&over);
    mark
}

#[cfg(test)]
mod tests {
    use super::{Marks, Signer, is_ed25519};

    #[test]
    fn marks_are_no_ed25519() {
        assert!(is_ed25519(&mut Marks).is_err());
        assert!(
            Signer::all()
                .last()
                .is_some_and(|signer| signer.name().starts_with("verdicts given"))
        );
    }

    #[test]
    fn every_signer_verifies_what_was_signed_and_nothing_else() {
        for mut signer in Signer::all() {
            let (one, other) = ([1; 32], [2; 32]);
            let message = b"the signed part".as_slice();
            let (public, other_public) = (signer.public(&one), signer.public(&other));
            let signature = signer.sign(&one, message);
            assert!(signer.verifies(&public, message, &signature), "{}", signer.name());
            assert!(
                !signer.verifies(&other_public, message, &signature),
                "{}",
                signer.name()
            );
            assert!(
                !signer.verifies(&public, b"the signed dart", &signature),
                "{}",
                signer.name()
            );
            for place in [0, 31, 32, 63] {
                let mut spoilt = signature;
                spoilt[place] ^= 1;
                assert!(
                    !signer.verifies(&public, message, &spoilt),
                    "{}: {place}",
                    signer.name()
                );
            }
        }
    }
}
