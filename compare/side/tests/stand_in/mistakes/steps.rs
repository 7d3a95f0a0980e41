//! Mistakes about the steps and about what is held.

use std::collections::BTreeMap;

use paper::envelope;
use paper::forms::{self, Header, Role, Root};
use paper::script::{Call, Script};
use paper::state::State;

use super::{file_of, rows_of, with_file};

/// The answer of a library with this mistake; `None` where the mistake plays no part.
pub fn answer(mistake: &str, script: &mut Script, call: &Call) -> Option<String> {
    let other = other_call(mistake, &script.state, call);
    let call = other.as_ref().unwrap_or(call);
    let before = script.state.clone();
    let mut leaned_on = before.clone();
    meddle_before(mistake, &mut leaned_on, call);
    if leaned_on != before {
        return Some(answer_in(script, leaned_on, call));
    }
    if let Some(answer) = other_answer(mistake, script, call) {
        return Some(answer);
    }
    if !meddles_after(mistake) {
        return other.is_some().then(|| script.call(call));
    }
    if matches!(
        call,
        Call::Find { .. } | Call::Key(_) | Call::Look(_) | Call::Entry { .. } | Call::State
    ) {
        return None;
    }
    let answer = script.call(call);
    if script.state == before && !answer.starts_with("install ") && !mistake.starts_with("refused-") {
        return Some(answer);
    }
    meddle_after(mistake, script, &before, call);
    // What is held is said again, as it is now.
    let mut words = answer.split(' ');
    let start: Vec<&str> = words.by_ref().take(2).collect();
    Some(format!("{}{}", start.join(" "), held(script)))
}

/// The answer and the next state as if another state had been there. What the call does not change stays as it was.
pub fn answer_in(script: &mut Script, leaned_on: State, call: &Call) -> String {
    let before = std::mem::replace(&mut script.state, leaned_on.clone());
    let answer = script.call(call);
    let after = &mut script.state;
    if after.root == leaned_on.root {
        after.root = before.root;
    }
    if after.timestamp == leaned_on.timestamp {
        after.timestamp = before.timestamp;
    }
    if after.snapshot == leaned_on.snapshot {
        after.snapshot = before.snapshot;
    }
    if after.targets == leaned_on.targets {
        after.targets = before.targets;
    }
    if after.time == leaned_on.time {
        after.time = before.time;
    }
    match call {
        Call::Find { .. } => answer,
        _ => {
            let start: Vec<&str> = answer.split(' ').take(2).collect();
            format!("{}{}", start.join(" "), held(script))
        }
    }
}

/// ` root=V ..` of the state in force.
pub fn held(script: &mut Script) -> String {
    let answer = script.call(&Call::State);
    let last = answer.lines().last().unwrap_or_default();
    last.trim_start_matches("state").to_string()
}

/// Mistakes that take the arguments for others.
fn other_call(mistake: &str, state: &State, call: &Call) -> Option<Call> {
    let mut other = call.clone();
    match (mistake, &mut other) {
        ("one-row", Call::Root { held_row, own_row, .. }) => *own_row = held_row.clone(),
        ("own-row-only", Call::Root { held_row, own_row, .. }) => *held_row = own_row.clone(),
        ("rows-swapped", Call::Root { held_row, own_row, .. }) => std::mem::swap(held_row, own_row),
        ("verdicts-above-1-taken", _) => {
            for row in rows_of(&mut other) {
                row.iter_mut().for_each(|verdict| *verdict = (*verdict).min(1));
            }
        }
        ("short-row-filled", _) => {
            let count = envelope::open(file_of(call)?).ok()?.entries.len();
            for row in rows_of(&mut other) {
                while row.len() < count {
                    row.push(0);
                }
            }
        }
        ("long-row-cut", _) => {
            let count = envelope::open(file_of(call)?).ok()?.entries.len();
            rows_of(&mut other).into_iter().for_each(|row| row.truncate(count));
        }
        ("last-entry-decides", _) => decide(&mut other, |verdicts| verdicts.last().copied())?,
        ("first-entry-decides", _) => decide(&mut other, |verdicts| verdicts.first().copied())?,
        ("signatures-counted", _) => return signatures_counted(state, call),
        ("time-unsigned", Call::Cycle(time) | Call::Install { time, .. }) => *time = (*time).max(0),
        ("time-32-bit", Call::Cycle(time) | Call::Install { time, .. }) => {
            *time = (*time).clamp(i64::from(i32::MIN), i64::from(i32::MAX));
        }
        _ => return None,
    }
    (other != *call).then_some(other)
}

/// Gives all entries of a key the same verdict.
fn decide(call: &mut Call, which: fn(&[u8]) -> Option<u8>) -> Option<()> {
    let entries = envelope::open(file_of(call)?).ok()?.entries;
    for row in rows_of(call) {
        if row.len() == entries.len() {
            let mut verdicts: BTreeMap<&str, Vec<u8>> = BTreeMap::new();
            for (entry, verdict) in entries.iter().zip(row.iter()) {
                verdicts.entry(&entry.keyid).or_default().push(*verdict);
            }
            *row = entries
                .iter()
                .filter_map(|entry| which(&verdicts[&*entry.keyid]))
                .collect();
        }
    }
    Some(())
}

/// Counts entries: every further one of a key is taken for one of another key of the role.
fn signatures_counted(state: &State, call: &Call) -> Option<Call> {
    let (Call::Timestamp { file, row } | Call::Snapshot { file, row } | Call::Targets { file, row }) = call else {
        return None;
    };
    let role = role_of(state.root.as_ref()?, call)?;
    let entries = envelope::open(file).ok()?.entries;
    let mut left: Vec<&String> = role.keyids.iter().collect();
    let mut text = String::from_utf8(file.clone()).ok()?;
    let mut from = 0;
    for (entry, verdict) in entries.iter().zip(row) {
        let place = from + text[from..].find(&entry.keyid)?;
        if *verdict == 1 && role.keyids.contains(&entry.keyid) {
            let mine = left.iter().position(|keyid| **keyid == entry.keyid);
            let counted = mine.map(|place| left.remove(place)).or_else(|| left.pop());
            if let Some(counted) = counted {
                text.replace_range(place..place + counted.len(), counted);
            }
        }
        from = place + entry.keyid.len();
    }
    Some(with_file(call, text.into_bytes()))
}

fn role_of<'a>(root: &'a Root, call: &Call) -> Option<&'a Role> {
    match call {
        Call::Timestamp { .. } => Some(&root.timestamp),
        Call::Snapshot { .. } => Some(&root.snapshot),
        Call::Targets { .. } => Some(&root.targets),
        _ => None,
    }
}

/// Mistakes that lean on something else than what is held.
fn meddle_before(mistake: &str, state: &mut State, call: &Call) {
    let version = file_of(call).and_then(|file| version_of(call, file)).unwrap_or(0);
    match (mistake, call) {
        ("roots-skipped", Call::Root { .. }) => {
            if let Some(held) = &mut state.root {
                held.header.version = held.header.version.max(version.saturating_sub(1));
            }
        }
        ("same-root-taken", Call::Root { .. }) => {
            if let Some(held) = state.root.as_mut().filter(|held| held.header.version == version) {
                held.header.version -= 1;
            }
        }
        ("same-timestamp-taken", Call::Timestamp { .. }) => {
            if let Some(held) = state.timestamp.as_mut().filter(|held| held.header.version == version) {
                held.header.version -= 1;
            }
        }
        ("lower-timestamp-taken", Call::Timestamp { .. }) => {
            if let Some(held) = state.timestamp.as_mut().filter(|held| held.header.version > version) {
                held.header.version = 0;
            }
        }
        ("lower-snapshot-listed", Call::Timestamp { .. }) => {
            if let Some(held) = &mut state.timestamp {
                held.snapshot.version = 0;
            }
        }
        ("snapshot-length-unchecked", Call::Snapshot { .. }) => {
            state.timestamp.iter_mut().for_each(|held| held.snapshot.length = None);
        }
        ("snapshot-digest-unchecked", Call::Snapshot { .. }) => {
            state.timestamp.iter_mut().for_each(|held| held.snapshot.sha256 = None);
        }
        ("higher-snapshot-taken", Call::Snapshot { .. }) => {
            if let Some(held) = &mut state.timestamp {
                held.snapshot.version = held.snapshot.version.max(version);
            }
        }
        ("held-snapshot-forgotten", Call::Snapshot { .. }) => state.snapshot = None,
        ("vanished-name-taken", Call::Snapshot { file, .. }) => {
            if let (Some(held), Ok(new)) = (&mut state.snapshot, forms::snapshot(file)) {
                held.meta.retain(|name, _| new.says.meta.contains_key(name));
            }
        }
        ("lowered-name-taken", Call::Snapshot { .. }) => {
            let listed = state.snapshot.iter_mut().flat_map(|held| held.meta.values_mut());
            listed.for_each(|listed| listed.version = 1);
        }
        ("only-targets-json-compared", Call::Snapshot { .. }) => {
            state
                .snapshot
                .iter_mut()
                .for_each(|held| held.meta.retain(|name, _| name == "targets.json"));
        }
        ("first-names-compared", Call::Snapshot { .. }) => {
            if let Some(held) = &mut state.snapshot {
                held.meta.pop_last();
            }
        }
        ("stale-snapshot-leaned-on", Call::Targets { .. } | Call::Find { .. }) => {
            if let (Some(timestamp), Some(snapshot)) = (&mut state.timestamp, &state.snapshot) {
                timestamp.snapshot.version = snapshot.header.version;
            }
        }
        ("targets-length-unchecked", Call::Targets { .. }) => listed_targets(state, |listed| listed.length = None),
        ("targets-digest-unchecked", Call::Targets { .. }) => listed_targets(state, |listed| listed.sha256 = None),
        ("targets-version-unchecked", Call::Targets { .. }) => {
            listed_targets(state, |listed| listed.version = version);
        }
        ("stale-targets-found", Call::Find { .. }) => {
            if let Some(held) = state.targets.as_ref().map(|held| held.header.version) {
                listed_targets(state, |listed| listed.version = held);
            }
        }
        ("find-digest-unchecked", Call::Find { file, .. }) => {
            state.targets.iter_mut().for_each(|held| held.digest = digest_of(file));
        }
        ("digest-of-the-signed-part", Call::Snapshot { file, .. }) => {
            if let Some(sha256) = state.timestamp.as_mut().and_then(|held| held.snapshot.sha256.as_mut()) {
                compare_signed_part(sha256, file);
            }
        }
        ("digest-of-the-signed-part", Call::Targets { file, .. }) => {
            listed_targets(state, |listed| {
                if let Some(sha256) = &mut listed.sha256 {
                    compare_signed_part(sha256, file);
                }
            });
        }
        ("signed-part-found-in", Call::Find { file, .. }) => {
            if let Some(held) = &mut state.targets {
                compare_signed_part(&mut held.digest, file);
            }
        }
        ("vanished-prefix-taken", Call::Snapshot { file, .. }) => {
            if let (Some(held), Ok(new)) = (&mut state.snapshot, forms::snapshot(file)) {
                let names = &new.says.meta;
                held.meta.retain(|name, _| {
                    let is_there = names.contains_key(name);
                    is_there || !names.keys().any(|other| other.starts_with(name.as_str()))
                });
            }
        }
        ("snapshot-length-16-bit", Call::Snapshot { file, .. }) => {
            let listed = state.timestamp.as_mut().and_then(|held| held.snapshot.length.as_mut());
            let length = file.len() as u64;
            if let Some(listed) = listed.filter(|listed| **listed % 65_536 == length % 65_536) {
                *listed = length;
            }
        }
        ("digest-31-bytes", Call::Snapshot { file, .. }) => {
            if let Some(sha256) = state.timestamp.as_mut().and_then(|held| held.snapshot.sha256.as_mut()) {
                forget_last_byte(sha256, file);
            }
        }
        ("digest-31-bytes", Call::Targets { file, .. }) => {
            listed_targets(state, |listed| {
                if let Some(sha256) = &mut listed.sha256 {
                    forget_last_byte(sha256, file);
                }
            });
        }
        ("sixteenth-key-ignored", _) => {
            if let Some(root) = state.root.as_mut().filter(|root| root.keys.len() == 16) {
                let last = root.keys.keys().next_back().cloned().unwrap_or_default();
                for role in [
                    &mut root.root,
                    &mut root.timestamp,
                    &mut root.snapshot,
                    &mut root.targets,
                ] {
                    role.keyids.remove(&last);
                }
            }
        }
        ("threshold-ignored", _) => {
            if let Some(root) = &mut state.root {
                for role in [
                    &mut root.root,
                    &mut root.timestamp,
                    &mut root.snapshot,
                    &mut root.targets,
                ] {
                    role.threshold = 1;
                }
            }
        }
        ("any-root-key-signs", Call::Timestamp { .. } | Call::Snapshot { .. } | Call::Targets { .. }) => {
            if let Some(root) = &mut state.root {
                let all = root.keys.keys().cloned().collect();
                root.timestamp.keyids = all;
                root.snapshot.keyids = root.timestamp.keyids.clone();
                root.targets.keyids = root.timestamp.keyids.clone();
            }
        }
        (
            "expired-a-second-late",
            Call::Timestamp { .. } | Call::Snapshot { .. } | Call::Targets { .. } | Call::Find { .. },
        ) => {
            state.time = state.time.saturating_sub(1);
        }
        ("root-expiry-forgotten", _) if !matches!(call, Call::Install { .. } | Call::Cycle(_) | Call::Root { .. }) => {
            state.root.iter_mut().for_each(|held| never_expires(&mut held.header));
        }
        ("timestamp-expiry-forgotten", Call::Snapshot { .. } | Call::Targets { .. } | Call::Find { .. }) => {
            state
                .timestamp
                .iter_mut()
                .for_each(|held| never_expires(&mut held.header));
        }
        ("snapshot-expiry-forgotten", Call::Targets { .. } | Call::Find { .. }) => {
            state
                .snapshot
                .iter_mut()
                .for_each(|held| never_expires(&mut held.header));
        }
        ("targets-expiry-forgotten", Call::Find { .. }) => {
            state
                .targets
                .iter_mut()
                .for_each(|held| never_expires(&mut held.header));
        }
        _ => {}
    }
}

fn digest_of(bytes: &[u8]) -> String {
    paper::hex::written(&paper::sha256::digest(bytes))
}

/// Makes the last byte of a digest in hex that of the file's.
fn forget_last_byte(sha256: &mut String, file: &[u8]) {
    sha256.truncate(62);
    sha256.push_str(&digest_of(file)[62..]);
}

/// Has a file pass whose signed part has the digest, and no other.
fn compare_signed_part(sha256: &mut String, file: &[u8]) {
    if let Ok((_, part, _)) = envelope::look(file) {
        *sha256 = match *sha256 == digest_of(part) {
            true => digest_of(file),
            false => "0".repeat(64),
        };
    }
}

fn never_expires(header: &mut Header) {
    header.expires = i64::MAX;
}

/// Changes what is listed for `targets.json`, if a snapshot is held.
pub fn listed_targets(state: &mut State, change: impl FnOnce(&mut forms::Listed)) {
    if let Some(listed) = state
        .snapshot
        .as_mut()
        .and_then(|held| held.meta.get_mut("targets.json"))
    {
        change(listed);
    }
}

/// The header of the file that a call offers.
fn header_of(call: &Call, file: &[u8]) -> Option<Header> {
    match call {
        Call::Install { .. } | Call::Root { .. } => forms::root(file).ok().map(|file| file.says.header),
        Call::Timestamp { .. } => forms::timestamp(file).ok().map(|file| file.says.header),
        Call::Snapshot { .. } => forms::snapshot(file).ok().map(|file| file.says.header),
        Call::Targets { .. } => forms::targets(file).ok().map(|file| file.says.header),
        _ => None,
    }
}

fn version_of(call: &Call, file: &[u8]) -> Option<u64> {
    header_of(call, file).map(|header| header.version)
}

/// Mistakes that say something else, and change nothing else.
fn other_answer(mistake: &str, script: &mut Script, call: &Call) -> Option<String> {
    let header = header_of(call, file_of(call)?);
    let is_past = |time: i64| header.as_ref().is_some_and(|header| header.expires <= time);
    let would_be = |script: &Script| {
        let mut tried = Script::default();
        tried.state = script.state.clone();
        let answer = tried.call(call);
        let number: u8 = answer
            .split(' ')
            .nth(1)
            .and_then(|number| number.parse().ok())
            .unwrap_or(0);
        (number, tried.state)
    };
    let refused = |name: &str, number: u8, script: &mut Script| Some(format!("{name} {number}{}", held(script)));
    match (mistake, call) {
        ("expired-install-refused", Call::Install { time, .. }) if would_be(script).0 == 0 && is_past(*time) => {
            script.state = State::blank();
            refused("install", 7, script)
        }
        ("expired-root-refused", Call::Root { .. }) if would_be(script).0 == 0 && is_past(script.state.time) => {
            refused("root", 14, script)
        }
        ("same-timestamp-11", Call::Timestamp { .. }) if would_be(script).0 == 12 => refused("timestamp", 11, script),
        ("listed-snapshot-must-rise", Call::Timestamp { file, .. }) => {
            let listed = forms::timestamp(file).ok()?.says.snapshot.version;
            let held = script.state.timestamp.as_ref()?.snapshot.version;
            (would_be(script).0 == 0 && listed == held).then_some(())?;
            refused("timestamp", 13, script)
        }
        ("14-before-9", Call::Timestamp { .. }) if would_be(script).0 == 9 && is_past(script.state.time) => {
            refused("timestamp", 14, script)
        }
        ("13-before-11", Call::Timestamp { file, .. }) => {
            let listed = forms::timestamp(file).ok()?.says.snapshot.version;
            let held = script.state.timestamp.as_ref()?.snapshot.version;
            (would_be(script).0 == 11 && listed < held).then_some(())?;
            refused("timestamp", 13, script)
        }
        ("9-before-8", Call::Snapshot { row, .. }) if would_be(script).0 == 8 && !row.contains(&1) => {
            refused("snapshot", 9, script)
        }
        ("targets-must-rise", Call::Targets { .. }) => {
            let held = script.state.targets.as_ref()?.header.version;
            (would_be(script).0 == 0 && header?.version <= held).then_some(())?;
            refused("targets", 11, script)
        }
        ("digest-must-be-listed", Call::Snapshot { .. }) => {
            let listed = &script.state.timestamp.as_ref()?.snapshot;
            (would_be(script).0 == 0 && listed.sha256.is_none()).then_some(())?;
            refused("snapshot", 8, script)
        }
        ("10-before-9", Call::Root { own_row, .. }) if would_be(script).0 == 9 && !own_row.contains(&1) => {
            refused("root", 10, script)
        }
        ("11-before-9", Call::Root { .. }) => {
            let held = script.state.root.as_ref()?.header.version;
            (would_be(script).0 == 9 && header?.version != held + 1).then_some(())?;
            refused("root", 11, script)
        }
        ("all-refused", Call::Timestamp { .. }) if would_be(script).0 == 0 => refused("timestamp", 9, script),
        _ => None,
    }
}

fn meddles_after(mistake: &str) -> bool {
    [
        "refused-install-keeps-state",
        "refused-install-keeps-time",
        "refused-root-drops",
        "refused-timestamp-held",
        "install-keeps-records",
        "root-sets-time",
        "rotation-missed",
        "snapshot-rotation-missed",
        "rotation-keeps-targets",
        "rotation-keeps-snapshot",
        "targets-rotation-missed",
        "targets-rotation-drops-all",
        "root-rotation-drops-all",
        "root-threshold-drops-all",
        "threshold-is-no-rotation",
        "snapshot-threshold-is-no-rotation",
        "targets-threshold-is-no-rotation",
        "targets-threshold-drops-all",
        "lowered-threshold-is-no-rotation",
        "added-key-is-no-rotation",
        "removed-key-is-no-rotation",
        "first-roles-believed",
        "old-keys-kept",
        "old-role-keys-count",
        "signed-part-found-in",
        "first-digest-kept",
        "snapshot-drops-targets",
        "timestamp-drops-snapshot",
        "cycle-drops-targets",
        "lowest-names-kept",
    ]
    .contains(&mistake)
}

/// Mistakes that hold something else afterwards. The state has changed, or an install was refused.
fn meddle_after(mistake: &str, script: &mut Script, before: &State, call: &Call) {
    let state = &mut script.state;
    let refused = state.root.is_none();
    match (mistake, call) {
        ("refused-install-keeps-state", Call::Install { .. }) if refused => *state = before.clone(),
        ("refused-install-keeps-time", Call::Install { .. }) if refused => state.time = before.time,
        ("install-keeps-records", Call::Install { .. }) if !refused => {
            state.timestamp = before.timestamp.clone();
            state.snapshot = before.snapshot.clone();
            state.targets = before.targets.clone();
        }
        ("refused-root-drops", Call::Root { file, .. }) if state == before => {
            if let (Some(held), Ok(new)) = (&before.root, forms::root(file))
                && held.timestamp.keyids != new.says.timestamp.keyids
            {
                state.timestamp = None;
            }
        }
        ("refused-timestamp-held", Call::Timestamp { file, .. }) if state == before => {
            if let (Some(_), Ok(new)) = (&before.root, forms::timestamp(file)) {
                state.timestamp = Some(new.says);
            }
        }
        ("cycle-drops-targets", Call::Cycle(_)) => state.targets = None,
        ("timestamp-drops-snapshot", Call::Timestamp { .. }) => state.snapshot = None,
        ("snapshot-drops-targets", Call::Snapshot { .. }) => state.targets = None,
        ("first-digest-kept", Call::Targets { .. }) => {
            if let (Some(new), Some(old)) = (&mut state.targets, &before.targets) {
                new.digest = old.digest.clone();
            }
        }
        ("signed-part-found-in", Call::Targets { file, .. }) => {
            if let (Some(held), Ok((_, part, _))) = (&mut state.targets, envelope::look(file)) {
                held.digest = digest_of(part);
            }
        }
        ("lowest-names-kept", Call::Snapshot { .. }) => {
            if let (Some(new), Some(old)) = (&mut state.snapshot, &before.snapshot) {
                for (name, listed) in &old.meta {
                    new.meta.insert(name.clone(), listed.clone());
                }
            }
        }
        (_, Call::Root { .. }) => {
            if let (Some(old), Some(new)) = (before.root.clone(), state.root.clone()) {
                meddle_after_root(mistake, state, before, (&old, &new));
            }
        }
        _ => {}
    }
}

fn is_rotated(old: &Role, new: &Role) -> bool {
    old.keyids != new.keyids || old.threshold != new.threshold
}

fn meddle_after_root(mistake: &str, state: &mut State, before: &State, (old, new): (&Root, &Root)) {
    let differs = |role: fn(&Root) -> &Role| is_rotated(role(old), role(new));
    let rotates = differs(|root| &root.timestamp) || differs(|root| &root.snapshot);
    let rotates_targets = differs(|root| &root.targets);
    let drop_all = |state: &mut State| {
        state.timestamp = None;
        state.snapshot = None;
        state.targets = None;
    };
    let keep_all = |state: &mut State| {
        state.timestamp = before.timestamp.clone();
        state.snapshot = before.snapshot.clone();
        state.targets = before.targets.clone();
    };
    // What is held if a role is rotated by another rule.
    let mut rotate_by = |rotated: fn(&str, &Role, &Role) -> bool| {
        let all =
            rotated("timestamp", &old.timestamp, &new.timestamp) || rotated("snapshot", &old.snapshot, &new.snapshot);
        let targets = all || rotated("targets", &old.targets, &new.targets);
        state.timestamp = before.timestamp.clone().filter(|_| !all);
        state.snapshot = before.snapshot.clone().filter(|_| !all);
        state.targets = before.targets.clone().filter(|_| !targets);
    };
    match mistake {
        "rotation-missed" if rotates => keep_all(state),
        "snapshot-rotation-missed" if rotates && !differs(|root| &root.timestamp) => keep_all(state),
        "rotation-keeps-targets" if rotates && !rotates_targets => state.targets = before.targets.clone(),
        "rotation-keeps-snapshot" if rotates => state.snapshot = before.snapshot.clone(),
        "targets-rotation-missed" if rotates_targets && !rotates => state.targets = before.targets.clone(),
        "targets-rotation-drops-all" if rotates_targets => drop_all(state),
        "root-rotation-drops-all" if differs(|root| &root.root) => drop_all(state),
        "root-threshold-drops-all" if old.root.threshold != new.root.threshold => drop_all(state),
        "targets-threshold-drops-all" if old.targets.threshold != new.targets.threshold => drop_all(state),
        "threshold-is-no-rotation" => rotate_by(|_, old, new| old.keyids != new.keyids),
        "snapshot-threshold-is-no-rotation" => rotate_by(|role, old, new| match role {
            "snapshot" => old.keyids != new.keyids,
            _ => is_rotated(old, new),
        }),
        "targets-threshold-is-no-rotation" => rotate_by(|role, old, new| match role {
            "targets" => old.keyids != new.keyids,
            _ => is_rotated(old, new),
        }),
        "lowered-threshold-is-no-rotation" => {
            rotate_by(|_, old, new| old.keyids != new.keyids || old.threshold < new.threshold);
        }
        "added-key-is-no-rotation" => {
            rotate_by(|_, old, new| !old.keyids.is_subset(&new.keyids) || old.threshold != new.threshold);
        }
        "removed-key-is-no-rotation" => {
            rotate_by(|_, old, new| !old.keyids.is_superset(&new.keyids) || old.threshold != new.threshold);
        }
        "root-sets-time" => state.time = new.header.expires - 1,
        "first-roles-believed" => {
            if let Some(held) = &mut state.root {
                *held = old.clone();
                held.header = new.header.clone();
            }
        }
        "old-keys-kept" => {
            if let Some(held) = &mut state.root {
                for (keyid, public) in &old.keys {
                    held.keys.entry(keyid.clone()).or_insert(public.clone());
                }
            }
        }
        "old-role-keys-count" => {
            if let Some(held) = &mut state.root {
                held.timestamp.keyids.extend(old.timestamp.keyids.iter().cloned());
            }
        }
        _ => {}
    }
}
