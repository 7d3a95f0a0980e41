//! Mistakes about the keyids of a root's key table.

use paper::forms;
use paper::hex;
use paper::json::{Object, Value};
use paper::refusal::Refusal;
use paper::script::{Call, Script};
use paper::sha256::digest;
use side::shelf::keyids::mended;
use side::shelf::tree::Tree;

use super::{file_of, with_file};

/// The answer of a library with this mistake; `None` where the mistake plays no part.
pub fn answer(mistake: &str, script: &mut Script, call: &Call) -> Option<String> {
    if !matches!(call, Call::Install { .. } | Call::Root { .. }) {
        return None;
    }
    let file = file_of(call)?;
    let refusal = forms::root(file).err();
    let other = match mistake {
        "keyids-unchecked" if refusal == Some(Refusal::OtherKeyid) => with_true_keyids(file)?,
        "keyids-of-named-keys-only" if refusal == Some(Refusal::OtherKeyid) => {
            let without = without_unnamed_keys(file)?;
            // What is left is refused for the same reason, unless it was a key that no role names.
            forms::root(&without).is_ok().then_some(without)?
        }
        "16-after-4" if refusal == Some(Refusal::OtherKeyid) => {
            let mended = with_true_keyids(file)?;
            (forms::root(&mended) == Err(Refusal::SpecVersion)).then_some(mended)?
        }
        "16-after-5" if refusal == Some(Refusal::OtherKeyid) => {
            let mended = with_true_keyids(file)?;
            let would_be = number_of(&Script::default().call(&with_file(call, mended.clone())));
            (would_be == "5").then_some(mended)?
        }
        "16-before-3" if refusal == Some(Refusal::BrokenForm) => {
            let is_wrong = key_table(file)?.iter().any(|(keyid, key)| *keyid != keyid_of(key));
            is_wrong.then(root_with_other_keyid)?
        }
        "upper-case-keyid-16" if refusal == Some(Refusal::BrokenForm) => {
            let is_upper = |keyid: &String| *keyid != keyid.to_lowercase() && hex::is_hex(&keyid.to_lowercase(), 64);
            key_table(file)?.keys().any(is_upper).then(root_with_other_keyid)?
        }
        "keyid-without-unknown-members" => edited(file, strip)?,
        "keyid-without-scheme" => edited(file, |key| drop(key.remove("scheme")))?,
        "keyid-of-the-public-value" if refusal.is_none() => root_with_other_keyid(),
        "first-keyid-checked" | "last-keyid-checked" if refusal == Some(Refusal::OtherKeyid) => {
            let keys = key_table(file)?;
            let checked = match mistake {
                "first-keyid-checked" => keys.first_key_value(),
                _ => keys.last_key_value(),
            };
            let (keyid, key) = checked?;
            (*keyid == keyid_of(key)).then(|| with_true_keyids(file))??
        }
        "keyid-60-digits" if refusal == Some(Refusal::OtherKeyid) => {
            let is_near = |(keyid, key): (&String, &Value)| keyid[..60] == keyid_of(key)[..60];
            key_table(file)?.iter().all(is_near).then(|| with_true_keyids(file))??
        }
        _ => return None,
    };
    Some(script.call(&with_file(call, other)))
}

fn number_of(answer: &str) -> String {
    answer.split(' ').nth(1).unwrap_or_default().to_string()
}

fn keyid_of(key: &Value) -> String {
    hex::written(&digest(key.written().as_bytes()))
}

fn with_true_keyids(file: &[u8]) -> Option<Vec<u8>> {
    Some(mended(&Tree::read(file)?).written())
}

fn key_table(file: &[u8]) -> Option<Object> {
    let file = paper::file::read(file).ok()?;
    file.object()?.get("signed")?.object()?.get("keys")?.object().cloned()
}

/// The file with another key table, if that is another one.
fn with_key_table(file: &[u8], keys: Object) -> Option<Vec<u8>> {
    if key_table(file)? == keys {
        return None;
    }
    let mut members = paper::file::read(file).ok()?.object()?.clone();
    let Some(Value::Object(signed)) = members.get_mut("signed") else {
        return None;
    };
    signed.insert("keys".to_string(), Value::Object(keys));
    Some(Value::Object(members).written().into_bytes())
}

fn without_unnamed_keys(file: &[u8]) -> Option<Vec<u8>> {
    let value = paper::file::read(file).ok()?;
    let roles = value.object()?.get("signed")?.object()?.get("roles")?.written();
    let mut keys = key_table(file)?;
    keys.retain(|keyid, _| roles.contains(keyid.as_str()));
    with_key_table(file, keys)
}

/// What a reader sees who edits every key before its keyid is judged: a root that has true keyids though it has not, or the
/// other way round.
fn edited(file: &[u8], edit: fn(&mut Object)) -> Option<Vec<u8>> {
    let is_accepted = match forms::root(file) {
        Ok(_) => true,
        Err(Refusal::OtherKeyid) => false,
        Err(_) => return None,
    };
    let mut keys = key_table(file)?;
    for key in keys.values_mut() {
        if let Value::Object(key) = key {
            edit(key);
        }
    }
    let is_right = keys.iter().all(|(keyid, key)| *keyid == keyid_of(key));
    match (is_right, is_accepted) {
        (true, false) => with_true_keyids(file),
        (false, true) => Some(root_with_other_keyid()),
        _ => None,
    }
}

/// Leaves what the form asks for.
fn strip(key: &mut Object) {
    key.retain(|name, _| ["keytype", "keyval", "scheme"].contains(&name.as_str()));
    if let Some(Value::Object(keyval)) = key.get_mut("keyval") {
        keyval.retain(|name, _| name == "public");
    }
}

/// A file to which the answer is 16.
fn root_with_other_keyid() -> Vec<u8> {
    let mut root = side::shelf::files::Root::new(1, 0);
    root.keys.insert(8, 9);
    let file = side::shelf::files::file(root.signed(), &[]).written();
    assert_eq!(forms::root(&file), Err(Refusal::OtherKeyid));
    file
}
