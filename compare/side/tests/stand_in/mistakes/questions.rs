//! Mistakes about looks, entries, keys, images, finds, digests and the state.

use paper::envelope;
use paper::script::{Call, Script};

/// The answer of a library with this mistake; `None` where the mistake plays no part.
pub fn answer(mistake: &str, script: &mut Script, call: &Call) -> Option<String> {
    match call {
        Call::Look(file) => look(mistake, file),
        Call::Entry { file, place } => entry(mistake, script, file, *place),
        Call::Key(keyid) => key(mistake, script, keyid),
        Call::Image { found, fetched } => image(mistake, script, found, fetched),
        Call::Find { file, path } => find(mistake, script, file, path),
        Call::Sha256(bytes) => sha256(mistake, script, bytes),
        Call::State => match mistake {
            "state-hides-targets" => {
                let answer = script.call(call);
                let held = script.state.targets.as_ref()?.header.version;
                Some(answer.replace(&format!("targets={held}"), "targets=-"))
            }
            _ => None,
        },
        _ => None,
    }
}

fn look(mistake: &str, file: &[u8]) -> Option<String> {
    let said = |start: usize, length: usize, entries: usize| Some(format!("look 0 {start} {length} {entries}"));
    match (mistake, envelope::look(file)) {
        ("look-first-signed", Ok((_, part, entries))) => {
            let name = b"\"signed\":";
            let place = file.windows(name.len()).position(|window| window == name)?;
            said(place + name.len(), part.len(), entries)
        }
        ("look-from-1", Ok((start, part, entries))) => said(start + 1, part.len(), entries),
        ("look-to-the-end", Ok((start, _, entries))) => said(start, file.len() - 1 - start, entries),
        ("look-signatures", Ok((start, part, _))) => {
            let name = b"\"sig\":";
            let count = file.windows(name.len()).filter(|window| window == name).count();
            said(start, part.len(), count)
        }
        ("look-asks-for-a-role", Ok((_, part, _))) => {
            let is_role = part.windows(7).any(|window| window == b"\"_type\"");
            (!is_role).then(|| "look 3 0 0 0".to_string())
        }
        ("look-refused-gives-all", Err(refusal)) => Some(format!("look {} 0 {} 0", refusal.number(), file.len())),
        _ => None,
    }
}

fn entry(mistake: &str, script: &mut Script, file: &[u8], place: u64) -> Option<String> {
    let place = match mistake {
        "entry-from-1" => place.wrapping_sub(1),
        "entry-place-32-bit" => place & 0xffff_ffff,
        "entry-place-first" if place >= 16 => {
            let empty = br#"{"signatures":[],"signed":{}}"#.to_vec();
            return Some(script.call(&Call::Entry { file: empty, place }));
        }
        "entry-refused-gives-the-last" => {
            let count = envelope::open(file).ok()?.entries.len() as u64;
            place.min(count.checked_sub(1)?)
        }
        _ => return None,
    };
    let file = file.to_vec();
    Some(script.call(&Call::Entry { file, place }))
}

fn key(mistake: &str, script: &mut Script, keyid: &[u8]) -> Option<String> {
    let other = match mistake {
        "key-in-any-case" => keyid.to_ascii_lowercase(),
        "key-first-64" => keyid.get(..64)?.to_vec(),
        "key-trimmed" => keyid.trim_ascii().to_vec(),
        "key-blank-15" if script.state.root.is_none() => {
            return Some(format!("key 15 {}", "0".repeat(64)));
        }
        "key-form-before-held" if keyid.len() != 64 && script.state.root.is_none() => {
            return Some(format!("key 15 {}", "0".repeat(64)));
        }
        "key-gives-keyid" => {
            let answer = script.call(&Call::Key(keyid.to_vec()));
            let asked = String::from_utf8_lossy(keyid);
            return answer.starts_with("key 0 ").then(|| format!("key 0 {asked}"));
        }
        _ => return None,
    };
    Some(script.call(&Call::Key(other)))
}

fn image(mistake: &str, script: &mut Script, found: &(u64, Vec<u8>), fetched: &(u64, Vec<u8>)) -> Option<String> {
    let (mut found, mut fetched) = (found.clone(), fetched.clone());
    match mistake {
        "image-length-unchecked" => found.0 = fetched.0,
        "image-length-32-bit" => (found.0, fetched.0) = (found.0 & 0xffff_ffff, fetched.0 & 0xffff_ffff),
        "image-up-to-length" if fetched.0 < found.0 => fetched.0 = found.0,
        "image-digest-unchecked" => fetched.1 = found.1.clone(),
        "image-31-bytes" if found.1.len() == 32 && fetched.1.len() == 32 => fetched.1[31] = found.1[31],
        "image-longer-digests" => {
            found.1.truncate(32);
            fetched.1.truncate(32);
        }
        "image-found-unjudged" if found.1.len() != 32 && fetched.1.len() == 32 => found.1 = fetched.1.clone(),
        "image-8-before-5" if found != fetched => return Some("image 8".to_string()),
        _ => return None,
    }
    Some(script.call(&Call::Image { found, fetched }))
}

fn find(mistake: &str, script: &mut Script, file: &[u8], path: &[u8]) -> Option<String> {
    let other = match mistake {
        "find-with-escapes" => String::from_utf8_lossy(path)
            .replace("\\\"", "\"")
            .replace("\\\\", "\\")
            .into_bytes(),
        "find-first-128" if path.len() > 128 => path[..128].to_vec(),
        "find-in-any-case" => path.to_ascii_lowercase(),
        "find-to-zero-byte" => path.split(|byte| *byte == 0).next()?.to_vec(),
        "find-path-first" if path.is_empty() || path.len() > 128 => return Some(not_listed(script, file, path)),
        "find-127" if path.len() == 128 => return Some(not_listed(script, file, path)),
        "find-31-bit" => {
            let answer = script.call(&call(file, path));
            let length: u64 = answer.split(' ').nth(2)?.parse().ok()?;
            return (length >= 1 << 31).then(|| answer.replace(&length.to_string(), "2147483647"));
        }
        _ => return None,
    };
    Some(script.call(&call(file, &other)))
}

/// 15, and the number of names that belongs to the call.
fn not_listed(script: &mut Script, file: &[u8], path: &[u8]) -> String {
    let answer = script.call(&call(file, path));
    let compared = answer.rsplit(' ').next().unwrap_or_default();
    format!("find 15 0 {} {compared}", "0".repeat(64))
}

fn call(file: &[u8], path: &[u8]) -> Call {
    Call::Find {
        file: file.to_vec(),
        path: path.to_vec(),
    }
}

fn sha256(mistake: &str, script: &mut Script, bytes: &[u8]) -> Option<String> {
    let rest = bytes.len() % 64;
    let other = match mistake {
        // The length is written over what stands at the end of the block.
        "sha256-padding-in-one-block" if rest >= 56 => bytes[..bytes.len() - rest + 55].to_vec(),
        "sha256-padding-after-a-full-block" if rest == 0 && !bytes.is_empty() => bytes[..bytes.len() - 1].to_vec(),
        "sha256-length-in-16-bits" if bytes.len() >= 8_192 => bytes[..bytes.len() % 8_192].to_vec(),
        "sha256-first-blocks" if bytes.len() > 128 => bytes[..128].to_vec(),
        "sha256-of-a-file" if bytes.len() > 32_768 => bytes[..32_768].to_vec(),
        "sha256-to-zero-byte" => bytes.split(|byte| *byte == 0).next()?.to_vec(),
        "sha256-in-upper-case" => {
            let answer = script.call(&Call::Sha256(bytes.to_vec()));
            return Some(answer.to_uppercase().replace("SHA", "sha"));
        }
        "sha256-words-reversed" => {
            let answer = script.call(&Call::Sha256(bytes.to_vec()));
            let digest = paper::hex::bytes(answer.strip_prefix("sha256 ")?)?;
            let words = digest.chunks(4).flat_map(|word| word.iter().rev());
            let words: Vec<u8> = words.copied().collect();
            return Some(format!("sha256 {}", paper::hex::written(&words)));
        }
        _ => return None,
    };
    Some(script.call(&Call::Sha256(other)))
}
