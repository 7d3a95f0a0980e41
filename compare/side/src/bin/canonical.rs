//! Prints the canonical form of a file that was printed for people. What was changed is said on standard error.

use std::io::{self, Write};
use std::process::ExitCode;

use paper::hex;
use side::canonical::{canonical, list};
use side::shelf::keyids::{renamed, true_keyids};
use side::shelf::sha256::digest;

const USAGE: &str = "\
canonical PRINTED [CHANGE ..]: prints the canonical form of a file
  NAME=FILE       lists the length and sha256 of FILE for NAME, instead of what is listed
  keyids-of=ROOT  puts true keyids in the place of those in the key table of ROOT, which is printed too";

fn main() -> ExitCode {
    match run(std::env::args().skip(1)) {
        Ok(()) => ExitCode::SUCCESS,
        Err(error) => {
            eprintln!("{error}");
            ExitCode::FAILURE
        }
    }
}

fn run(mut words: impl Iterator<Item = String>) -> Result<(), String> {
    let path = words.next().ok_or(USAGE)?;
    let printed = std::fs::read_to_string(&path).map_err(|error| format!("{path}: {error}"))?;
    let (mut file, changes) = canonical(&printed).map_err(|error| format!("{path}: {error}"))?;
    eprintln!("{path}: {changes}");
    for word in words {
        let (name, other) = word.split_once('=').ok_or(USAGE)?;
        let content = std::fs::read(other).map_err(|error| format!("{other}: {error}"))?;
        if name == "keyids-of" {
            let (root, _) =
                canonical(&String::from_utf8_lossy(&content)).map_err(|error| format!("{other}: {error}"))?;
            file = renamed(&file, &true_keyids(&root));
            eprintln!("{path}: keyids are now those of the keys in {other}");
        } else {
            list(&mut file, name, &content)?;
            eprintln!("{path}: length and sha256 of {name} are now those of {other}");
        }
    }
    let written = file.written();
    eprintln!(
        "{path}: {} bytes, sha256 {}",
        written.len(),
        hex::written(&digest(&written))
    );
    io::stdout().write_all(&written).map_err(|error| error.to_string())
}
