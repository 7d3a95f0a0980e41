//! Mistakes about versions: a range with other ends, and numbers of which something is lost when they are read, compared or
//! kept. Lengths belong here only where they get the range of versions.

use paper::forms;
use paper::json::{Number, Object, Value};
use paper::script::{Call, Script};
use paper::state::State;
use side::shelf::files::HIGHEST_VERSION;

use super::steps::{answer_in, held, listed_targets};
use super::{file_of, with_file};

/// The highest version before A7.
const FORMER_HIGHEST: u64 = 2_147_483_647;

/// "length" (0 to 4,294,967,295)
const HIGHEST_LENGTH: u64 = 4_294_967_295;

/// The answer of a library with this mistake; `None` where the mistake plays no part.
pub fn answer(mistake: &str, script: &mut Script, call: &Call) -> Option<String> {
    misread(mistake, script, call)
        .or_else(|| miscompared(mistake, script, call))
        .or_else(|| miskept(mistake, script, call))
}

/// What a reader with a mistake makes of a number.
enum Seen {
    AsItIs,
    Other(u64),
    Refused,
}

/// Mistakes of reading: the file is taken for one with other numbers, or for one with a broken form.
fn misread(mistake: &str, script: &mut Script, call: &Call) -> Option<String> {
    if matches!(call, Call::Look(_) | Call::Entry { .. }) {
        return None;
    }
    let mut file = paper::file::read(file_of(call)?).ok()?;
    let before = file.clone();
    for (place, value) in numbers_in(&mut file) {
        match seen(mistake, place, value) {
            Seen::AsItIs => {}
            Seen::Other(other) => *value = Value::Number(Number::from(other)),
            Seen::Refused => return Some(script.call(&with_file(call, b"{}".to_vec()))),
        }
    }
    (file != before).then(|| script.call(&with_file(call, file.written().into_bytes())))
}

/// Where a number stands.
#[derive(Clone, Copy, PartialEq, Eq)]
enum Place {
    OwnVersion,
    ListedVersion,
    ListedLength,
    ImageLength,
}

/// The versions and lengths of a file, as far as it has its form.
fn numbers_in(file: &mut Value) -> Vec<(Place, &mut Value)> {
    let mut numbers = Vec::new();
    let Some(Value::Object(signed)) = members(file).and_then(|file| file.get_mut("signed")) else {
        return numbers;
    };
    for (name, value) in signed {
        match name.as_str() {
            "version" => numbers.push((Place::OwnVersion, value)),
            "meta" => numbers.extend(numbers_listed(value, Place::ListedLength)),
            "targets" => numbers.extend(numbers_listed(value, Place::ImageLength)),
            _ => {}
        }
    }
    numbers
}

fn numbers_listed(table: &mut Value, length: Place) -> impl Iterator<Item = (Place, &mut Value)> {
    let listed = members(table).into_iter().flat_map(|table| table.values_mut());
    let numbers = listed.filter_map(members).flatten();
    numbers.filter_map(move |(name, value)| match name.as_str() {
        "version" => Some((Place::ListedVersion, value)),
        "length" => Some((length, value)),
        _ => None,
    })
}

fn members(value: &mut Value) -> Option<&mut Object> {
    match value {
        Value::Object(members) => Some(members),
        _ => None,
    }
}

fn seen(mistake: &str, place: Place, value: &Value) -> Seen {
    match place {
        Place::OwnVersion | Place::ListedVersion => {
            let mistake = match place {
                Place::OwnVersion => mistake.strip_prefix("own-").unwrap_or(mistake),
                _ => mistake.strip_prefix("listed-").unwrap_or(mistake),
            };
            version_seen(mistake, value)
        }
        Place::ListedLength if mistake == "listed-lengths-follow-versions" => length_seen(value),
        Place::ImageLength if mistake == "image-lengths-follow-versions" => length_seen(value),
        _ => Seen::AsItIs,
    }
}

fn version_seen(mistake: &str, value: &Value) -> Seen {
    let within = |low: u64, high: u64| value.within(low..=high);
    let refused_if = |is_refused: bool| if is_refused { Seen::Refused } else { Seen::AsItIs };
    let other = |other: Option<u64>| other.map_or(Seen::AsItIs, Seen::Other);
    match mistake {
        "versions-end-at-2147483647" => refused_if(within(FORMER_HIGHEST + 1, HIGHEST_VERSION).is_some()),
        "versions-end-at-4294967295" => refused_if(within(1 << 32, HIGHEST_VERSION).is_some()),
        "versions-end-one-early" => refused_if(within(HIGHEST_VERSION, HIGHEST_VERSION).is_some()),
        "versions-end-one-late" => other(within(HIGHEST_VERSION + 1, HIGHEST_VERSION + 1).map(|_| HIGHEST_VERSION)),
        "versions-without-end" => other(within(HIGHEST_VERSION, u64::MAX).map(|_| HIGHEST_VERSION)),
        "versions-begin-at-0" => other(within(0, 0).map(|_| 1)),
        "versions-without-sign" => other(value.written().strip_prefix('-').and_then(|digits| digits.parse().ok())),
        "versions-in-quotes" => other(value.string().and_then(|text| text.parse().ok())),
        "versions-read-in-32-bits" => other(within(1 << 32, u64::MAX).map(|version| version % (1 << 32))),
        "versions-read-as-f32" => other(within(1, HIGHEST_VERSION).map(|version| version as f32 as u64)),
        _ => Seen::AsItIs,
    }
}

fn length_seen(length: &Value) -> Seen {
    match length.within(HIGHEST_LENGTH + 1..=HIGHEST_VERSION) {
        Some(_) => Seen::Other(HIGHEST_LENGTH),
        None => Seen::AsItIs,
    }
}

/// What is left of a version when it is compared. Each fits into an f64 as it is.
type View = fn(u64) -> f64;

/// Mistakes of comparing, such as `timestamps-compared-in-32-bits`: the state leaned on has other versions, which compare as
/// those held would by the view.
fn miscompared(mistake: &str, script: &mut Script, call: &Call) -> Option<String> {
    let (what, view) = mistake.split_once("-compared-")?;
    let view: View = match view {
        "in-32-bits" => |version| f64::from(version as u32),
        "as-i32" => |version| f64::from(version as i32),
        "up-to-32-bits" => |version| version.min(u32::MAX.into()) as f64,
        "as-f32" => |version| f64::from(version as f32),
        _ => return None,
    };
    let mut leaned_on = script.state.clone();
    compare_by(view, what, &mut leaned_on, call)?;
    (leaned_on != script.state).then(|| answer_in(script, leaned_on, call))
}

fn compare_by(view: View, what: &str, state: &mut State, call: &Call) -> Option<()> {
    match (what, call) {
        ("roots", Call::Root { file, .. }) => {
            let new = forms::root(file).ok()?.says.header.version;
            let held = &mut state.root.as_mut()?.header.version;
            let is_next = view(*held + 1) == view(new);
            *held = if is_next { new - 1 } else { new };
        }
        ("timestamps", Call::Timestamp { file, .. }) => {
            let new = forms::timestamp(file).ok()?.says;
            stand_for(view, &mut state.timestamp.as_mut()?.header.version, new.header.version);
        }
        ("listed-snapshots", Call::Timestamp { file, .. }) => {
            let new = forms::timestamp(file).ok()?.says;
            let held = &mut state.timestamp.as_mut()?.snapshot;
            stand_for(view, &mut held.version, new.snapshot.version);
        }
        ("snapshots", Call::Snapshot { file, .. }) => {
            let new = forms::snapshot(file).ok()?.says;
            let listed = &mut state.timestamp.as_mut()?.snapshot;
            stand_for(view, &mut listed.version, new.header.version);
        }
        ("names", Call::Snapshot { file, .. }) => {
            let new = forms::snapshot(file).ok()?.says;
            for (name, held) in &mut state.snapshot.as_mut()?.meta {
                stand_for(view, &mut held.version, new.meta.get(name)?.version);
            }
        }
        ("targets", Call::Targets { file, .. }) => {
            let new = forms::targets(file).ok()?.says;
            listed_targets(state, |listed| stand_for(view, &mut listed.version, new.header.version));
        }
        ("current-snapshots", Call::Targets { .. } | Call::Find { .. }) => {
            let held = state.snapshot.as_ref()?.header.version;
            stand_for(view, &mut state.timestamp.as_mut()?.snapshot.version, held);
        }
        ("current-targets", Call::Find { .. }) => {
            let held = state.targets.as_ref()?.header.version;
            listed_targets(state, |listed| stand_for(view, &mut listed.version, held));
        }
        _ => {}
    }
    Some(())
}

/// Replaces a version by one that is as much above, equal to or below the other as it is by the view.
fn stand_for(view: View, version: &mut u64, other: u64) {
    *version = match view(*version).total_cmp(&view(other)) {
        std::cmp::Ordering::Less => other - 1,
        std::cmp::Ordering::Equal => other,
        std::cmp::Ordering::Greater => other + 1,
    };
}

/// Mistakes of keeping and saying: what is held loses its high bits after the call, or the answer does.
fn miskept(mistake: &str, script: &mut Script, call: &Call) -> Option<String> {
    let (own, listed, said) = match mistake {
        "own-versions-kept-in-32-bits" => (true, false, false),
        "listed-versions-kept-in-32-bits" => (false, true, false),
        "versions-said-in-32-bits" => (false, false, true),
        _ => return None,
    };
    if !matches!(
        call,
        Call::Install { .. }
            | Call::Root { .. }
            | Call::Timestamp { .. }
            | Call::Snapshot { .. }
            | Call::Targets { .. }
    ) {
        return None;
    }
    let answer = script.call(call);
    let kept = script.state.clone();
    if own || said {
        own_versions(&mut script.state).for_each(cut);
    }
    if listed {
        listed_versions(&mut script.state).for_each(cut);
    }
    let start: Vec<&str> = answer.split(' ').take(2).collect();
    let answer = format!("{}{}", start.join(" "), held(script));
    if said {
        script.state = kept;
    }
    Some(answer)
}

fn cut(version: &mut u64) {
    *version %= 1 << 32;
}

fn own_versions(state: &mut State) -> impl Iterator<Item = &mut u64> {
    let headers = [
        state.root.as_mut().map(|held| &mut held.header),
        state.timestamp.as_mut().map(|held| &mut held.header),
        state.snapshot.as_mut().map(|held| &mut held.header),
        state.targets.as_mut().map(|held| &mut held.header),
    ];
    headers.into_iter().flatten().map(|header| &mut header.version)
}

fn listed_versions(state: &mut State) -> impl Iterator<Item = &mut u64> {
    let by_timestamp = state.timestamp.as_mut().map(|held| &mut held.snapshot);
    let by_snapshot = state.snapshot.as_mut().map(|held| held.meta.values_mut());
    let listed = by_timestamp.into_iter().chain(by_snapshot.into_iter().flatten());
    listed.map(|listed| &mut listed.version)
}
