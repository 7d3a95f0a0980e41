//! Mistakes about the forms. A file with a broken form is taken for one that a careless reader sees in it; a sound one is
//! taken for one that is none.

use paper::forms;
use paper::json::{Number, Object, Value};
use paper::script::{Call, Script};
use side::shelf::files::HIGHEST_VERSION;

use super::{file_of, with_file};

/// The answer of a library with this mistake; `None` where the mistake plays no part.
pub fn answer(mistake: &str, script: &mut Script, call: &Call) -> Option<String> {
    let file = file_of(call)?;
    let is_asked_whole = !matches!(call, Call::Look(_) | Call::Entry { .. });
    let mut value = paper::file::read(file).ok()?;
    let Value::Object(members) = &mut value else {
        return None;
    };
    if is_refused(mistake, members) {
        return Some(script.call(&with_file(call, b"{}".to_vec())));
    }
    let before = members.clone();
    match is_asked_whole {
        true => careless(mistake, members, call)?,
        false => careless_envelope(mistake, members)?,
    }
    (before != *members).then_some(())?;
    let mut other = with_file(call, value.written().into_bytes());
    // The careless reader asks for no verdicts on what it does not see.
    if mistake == "17-entries-taken" {
        super::rows_of(&mut other).into_iter().for_each(|row| row.truncate(16));
    }
    Some(script.call(&other))
}

/// Mistakes that refuse a file with a sound form.
fn is_refused(mistake: &str, file: &Object) -> bool {
    let signed = file.get("signed").and_then(Value::object);
    let names = |table: &str| {
        let table = signed.and_then(|signed| signed.get(table)).and_then(Value::object);
        table
            .map(|table| table.keys().cloned().collect::<Vec<_>>())
            .unwrap_or_default()
    };
    let escaped = |name: &str| name.replace('\\', "\\\\").replace('"', "\\\"").len();
    match mistake {
        "unknown-member-refused" => signed.is_some_and(|signed| signed.contains_key("~")),
        "unknown-envelope-member-refused" => file.len() > 2,
        "unknown-role-refused" => names("roles").len() > 4,
        "other-hash-refused" => text_of(file).contains("\"sha512\":"),
        "name-bytes-with-escapes" => names("meta").iter().any(|name| escaped(name) > 32),
        "path-bytes-with-escapes" => names("targets").iter().any(|name| escaped(name) > 128),
        "255-targets" => names("targets").len() > 255,
        "no-targets-refused" => {
            signed.is_some_and(|signed| signed.contains_key("targets")) && names("targets").is_empty()
        }
        "15-entries" => file
            .get("signatures")
            .and_then(Value::array)
            .is_some_and(|entries| entries.len() > 15),
        "spec-version-with-dots" => {
            signed.is_some_and(|signed| signed.get("spec_version").and_then(Value::string) == Some("1"))
        }
        "keyids-in-order" => {
            let keyids = signed
                .and_then(|signed| {
                    signed
                        .get("roles")?
                        .object()?
                        .get("root")?
                        .object()?
                        .get("keyids")?
                        .array()
                })
                .unwrap_or_default();
            let texts: Vec<&str> = keyids.iter().filter_map(Value::string).collect();
            !texts.is_sorted()
        }
        _ => false,
    }
}

fn text_of(file: &Object) -> String {
    Value::Object(file.clone()).written()
}

fn number(number: u64) -> Value {
    Value::Number(Number::from(number))
}

/// What a careless reader sees.
fn careless(mistake: &str, file: &mut Object, call: &Call) -> Option<()> {
    if mistake == "sig-unchecked" {
        if let Value::Array(entries) = file.get_mut("signatures")? {
            for entry in entries {
                if let Value::Object(entry) = entry {
                    entry.insert("sig".to_string(), Value::String("0".repeat(128)));
                }
            }
        }
        return Some(());
    }
    if careless_envelope(mistake, file).is_some() {
        return Some(());
    }
    match file.get_mut("signed")? {
        Value::Object(signed) => careless_signed(mistake, signed, call),
        _ => None,
    }
}

fn careless_envelope(mistake: &str, file: &mut Object) -> Option<()> {
    match mistake {
        "17-entries-taken" => match file.get_mut("signatures")? {
            Value::Array(entries) if entries.len() == 17 => drop(entries.pop()),
            _ => return None,
        },
        "signed-array-taken" => {
            if let Some(Value::Array(_)) = file.get("signed") {
                file.insert("signed".to_string(), Value::Object(Object::new()));
            }
        }
        "upper-case-hex-taken" => lower_case(file),
        _ => return None,
    }
    Some(())
}

fn lower_case(object: &mut Object) {
    for value in object.values_mut() {
        lower_case_value(value);
    }
}

fn lower_case_value(value: &mut Value) {
    match value {
        Value::String(text) if text.len() >= 64 => *text = text.to_lowercase(),
        Value::Array(items) => items.iter_mut().for_each(lower_case_value),
        Value::Object(members) => lower_case(members),
        _ => {}
    }
}

fn careless_signed(mistake: &str, signed: &mut Object, call: &Call) -> Option<()> {
    match mistake {
        "type-unchecked" => {
            let role = match call {
                Call::Install { .. } | Call::Root { .. } => "root",
                Call::Timestamp { .. } => "timestamp",
                Call::Snapshot { .. } => "snapshot",
                _ => "targets",
            };
            signed.insert("_type".to_string(), Value::String(role.to_string()));
        }
        "version-0-taken" => {
            if signed.get("version")?.within(0..=0).is_some() {
                signed.insert("version".to_string(), number(1));
            }
        }
        "version-wraps-at-64-bits" => {
            if signed.get("version")?.within(0..=u64::MAX).is_none() {
                signed.insert("version".to_string(), number(1));
            }
        }
        "version-without-end" => {
            let version = signed.get("version")?.within(1..=u64::MAX)?;
            signed.insert("version".to_string(), number(version.min(HIGHEST_VERSION)));
        }
        "expires-unchecked" => {
            if paper::date::seconds(signed.get("expires")?.string()?.as_bytes()).is_none() {
                signed.insert("expires".to_string(), Value::String("2033-05-18T03:33:20Z".to_string()));
            }
        }
        "spec-version-unchecked" => drop(signed.insert("spec_version".to_string(), Value::String("1".to_string()))),
        "spec-version-by-first-digit" => {
            if signed.get("spec_version")?.string()?.starts_with('1') {
                signed.insert("spec_version".to_string(), Value::String("1".to_string()));
            }
        }
        "4-before-3" => {
            // A spec_version that is not known hides everything else.
            let spec_version = signed.get("spec_version")?.string()?.to_string();
            if spec_version == "1" || spec_version.starts_with("1.") {
                return None;
            }
            let sound = sound_signed(call)?;
            *signed = sound;
            signed.insert("spec_version".to_string(), Value::String(spec_version));
        }
        "consistent-snapshot-missing-taken" => {
            signed
                .entry("consistent_snapshot".to_string())
                .or_insert(Value::Bool(false));
        }
        "consistent-snapshot-any" => {
            signed.insert("consistent_snapshot".to_string(), Value::Bool(false));
        }
        "17-keys-taken" => {
            let roles = signed.get("roles")?.written();
            let Value::Object(keys) = signed.get_mut("keys")? else {
                return None;
            };
            if keys.len() == 17 {
                let spare = keys.keys().find(|keyid| !roles.contains(*keyid))?.clone();
                keys.remove(&spare);
            }
        }
        "same-public-taken" => {
            let Value::Object(keys) = signed.get_mut("keys")? else {
                return None;
            };
            let mut seen = Vec::new();
            for (place, key) in keys.values_mut().enumerate() {
                let Value::Object(key) = key else { return None };
                let Value::Object(keyval) = key.get_mut("keyval")? else {
                    return None;
                };
                let public = keyval.get("public")?.clone();
                if seen.contains(&public) {
                    keyval.insert("public".to_string(), Value::String(format!("{place:064x}")));
                }
                seen.push(public);
            }
        }
        "keytype-unchecked" | "scheme-unchecked" => {
            let Value::Object(keys) = signed.get_mut("keys")? else {
                return None;
            };
            let name = mistake.split('-').next()?;
            for key in keys.values_mut() {
                if let Value::Object(key) = key {
                    key.insert(name.to_string(), Value::String("ed25519".to_string()));
                }
            }
        }
        "keyid-twice-taken" | "stray-keyid-taken" | "threshold-0-taken" | "threshold-above-taken" => {
            let keys: Vec<String> = signed.get("keys")?.object()?.keys().cloned().collect();
            let Value::Object(roles) = signed.get_mut("roles")? else {
                return None;
            };
            for role in roles.values_mut() {
                if let Value::Object(role) = role {
                    careless_role(mistake, role, &keys);
                }
            }
        }
        "further-meta-taken" => {
            let Value::Object(meta) = signed.get_mut("meta")? else {
                return None;
            };
            if matches!(call, Call::Timestamp { .. }) {
                meta.retain(|name, _| name == "snapshot.json");
            }
        }
        "targets-json-missing-taken" => {
            let Value::Object(meta) = signed.get_mut("meta")? else {
                return None;
            };
            if matches!(call, Call::Snapshot { .. }) {
                let listed = Value::Object(Object::from([("version".to_string(), number(1))]));
                meta.entry("targets.json".to_string()).or_insert(listed);
            }
        }
        "33-names-taken" => {
            let Value::Object(meta) = signed.get_mut("meta")? else {
                return None;
            };
            if meta.len() == 33 {
                meta.pop_first();
            }
        }
        "257-targets-taken" => {
            let Value::Object(targets) = signed.get_mut("targets")? else {
                return None;
            };
            if targets.len() == 257 {
                targets.pop_last();
            }
        }
        "name-33-taken" | "empty-name-taken" => {
            let Value::Object(meta) = signed.get_mut("meta")? else {
                return None;
            };
            let wrong = if mistake == "name-33-taken" { 33 } else { 0 };
            meta.retain(|name, _| name.len() != wrong);
        }
        "path-129-taken" | "empty-path-taken" => {
            let Value::Object(targets) = signed.get_mut("targets")? else {
                return None;
            };
            let wrong = if mistake == "path-129-taken" { 129 } else { 0 };
            targets.retain(|name, _| name.len() != wrong);
        }
        "hashes-missing-taken" | "length-33-bit-taken" | "null-length-taken" | "hashes-without-sha256-taken" => {
            for table in ["meta", "targets"] {
                let is_target = table == "targets";
                if let Some(Value::Object(table)) = signed.get_mut(table) {
                    for listed in table.values_mut() {
                        if let Value::Object(listed) = listed {
                            careless_listed(mistake, listed, is_target);
                        }
                    }
                }
            }
        }
        _ => return None,
    }
    Some(())
}

/// The signed part of some sound file for the call.
fn sound_signed(call: &Call) -> Option<Object> {
    let header = |role: &str, more: &str| {
        format!(r#"{{"_type":"{role}","expires":"2033-05-18T03:33:20Z",{more}"spec_version":"1","version":1}}"#)
    };
    let text = match call {
        Call::Timestamp { .. } => header("timestamp", r#""meta":{"snapshot.json":{"version":1}},"#),
        Call::Snapshot { .. } => header("snapshot", r#""meta":{"targets.json":{"version":1}},"#),
        _ => return None,
    };
    let signed = paper::json::parse(text.as_bytes()).ok()?;
    let file = format!(r#"{{"signatures":[],"signed":{text}}}"#);
    assert!(forms::timestamp(file.as_bytes()).is_ok() || forms::snapshot(file.as_bytes()).is_ok());
    signed.object().cloned()
}

fn careless_role(mistake: &str, role: &mut Object, keys: &[String]) {
    let Some(Value::Array(keyids)) = role.get_mut("keyids") else {
        return;
    };
    match mistake {
        "keyid-twice-taken" => {
            let mut seen = Vec::new();
            keyids.retain(|keyid| {
                let is_new = !seen.contains(keyid);
                seen.push(keyid.clone());
                is_new
            });
        }
        "stray-keyid-taken" => {
            keyids.retain(|keyid| keyid.string().is_none_or(|keyid| keys.iter().any(|key| key == keyid)));
        }
        _ => {
            let count = keyids.len() as u64;
            let threshold = role
                .get("threshold")
                .and_then(|threshold| threshold.within(0..=u64::MAX));
            let other = match (mistake, threshold) {
                ("threshold-0-taken", Some(0)) => 1,
                ("threshold-above-taken", Some(threshold)) if threshold > count => count,
                _ => return,
            };
            role.insert("threshold".to_string(), number(other));
        }
    }
}

fn careless_listed(mistake: &str, listed: &mut Object, is_target: bool) {
    let sha256 = Value::Object(Object::from([("sha256".to_string(), Value::String("0".repeat(64)))]));
    match mistake {
        "hashes-missing-taken" if is_target => {
            listed.entry("hashes".to_string()).or_insert(sha256);
        }
        "hashes-without-sha256-taken" => {
            let is_there = listed
                .get("hashes")
                .and_then(Value::object)
                .is_some_and(|hashes| !hashes.contains_key("sha256"));
            match is_there {
                true if is_target => drop(listed.insert("hashes".to_string(), sha256)),
                true => drop(listed.remove("hashes")),
                false => {}
            }
        }
        "length-33-bit-taken" => {
            let length = listed
                .get("length")
                .and_then(|length| length.within(4_294_967_296..=8_589_934_591));
            if let Some(length) = length {
                listed.insert("length".to_string(), number(length - 4_294_967_296));
            }
        }
        "null-length-taken" if !is_target && listed.get("length") == Some(&Value::Null) => {
            listed.remove("length");
        }
        _ => {}
    }
}
