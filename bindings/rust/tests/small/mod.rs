//! Small files, for more than one file of tests: one key signs every role.
#![allow(dead_code)] // not every file of tests uses all of it

use gronwythal::{Refusal, State};
use std::fmt::Display;

pub const KEY: &str = r#"{"keytype":"ed25519","keyval":{"public":"bbbbbbbbbbbbbbbbbbbbbbbbbbbbbbbbbbbbbbbbbbbbbbbbbbbbbbbbbbbbbbbb"},"scheme":"ed25519"}"#;
pub const KEYID: &str = "72164dd0dd21502e17f1d57bfb21b4a44ec536df765ca2c57fdc9514846c4a7c"; // of KEY
pub const FAR: &str = "2030-01-01T00:00:00Z"; // 1893456000
pub const GOOD: &[u8] = &[1];

fn envelope(signed: &str) -> Vec<u8> {
    let sig = "0".repeat(128);
    format!(r#"{{"signatures":[{{"keyid":"{KEYID}","sig":"{sig}"}}],"signed":{signed}}}"#).into_bytes()
}

pub fn root_of(version: impl Display, expires: &str, spec: &str) -> Vec<u8> {
    let role = format!(r#"{{"keyids":["{KEYID}"],"threshold":1}}"#);
    envelope(&format!(
        r#"{{"_type":"root","consistent_snapshot":false,"expires":"{expires}","keys":{{"{KEYID}":{KEY}}},"roles":{{"root":{role},"snapshot":{role},"targets":{role},"timestamp":{role}}},"spec_version":"{spec}","version":{version}}}"#
    ))
}

pub fn root(version: impl Display) -> Vec<u8> {
    root_of(version, FAR, "1.0.26")
}

/// A timestamp or snapshot that lists these entries, as a file writes them.
fn listing(kind: &str, version: impl Display, meta: &str, expires: &str) -> Vec<u8> {
    envelope(&format!(
        r#"{{"_type":"{kind}","expires":"{expires}","meta":{{{meta}}},"spec_version":"1","version":{version}}}"#
    ))
}

pub fn timestamp(version: impl Display, snapshot: impl Display, expires: &str) -> Vec<u8> {
    let meta = format!(r#""snapshot.json":{{"version":{snapshot}}}"#);
    listing("timestamp", version, &meta, expires)
}

/// A snapshot that lists these names, as a file writes them, and then a targets file of that version.
pub fn snapshot_of(version: impl Display, names: &str, targets: impl Display, expires: &str) -> Vec<u8> {
    let meta = format!(r#"{names}"targets.json":{{"version":{targets}}}"#);
    listing("snapshot", version, &meta, expires)
}

/// A targets file that lists these names, as a file writes them: the first image has 5 bytes, each later one has one byte more.
pub fn targets_listing<N: Display>(names: &[N], version: impl Display, expires: &str) -> Vec<u8> {
    let digest = "1".repeat(64);
    let image = |(length, name)| format!(r#""{name}":{{"hashes":{{"sha256":"{digest}"}},"length":{length}}}"#);
    let images: Vec<String> = (5..).zip(names).map(image).collect();
    envelope(&format!(
        r#"{{"_type":"targets","expires":"{expires}","spec_version":"1","targets":{{{}}},"version":{version}}}"#,
        images.join(",")
    ))
}

pub fn targets(version: impl Display, expires: &str) -> Vec<u8> {
    targets_listing(&["i"], version, expires)
}

/// The file with its first `from` replaced.
pub fn changed(file: Vec<u8>, from: &str, to: &str) -> Vec<u8> {
    let text = String::from_utf8(file).unwrap();
    assert!(text.contains(from));
    text.replacen(from, to, 1).into_bytes()
}

/// The state after a call that answers 0.
#[track_caller]
pub fn accepted(state: &State, call: impl FnOnce(&mut State) -> Result<(), Refusal>) -> State {
    let mut after = state.clone();
    assert_eq!(call(&mut after), Ok(()), "{state:?}");
    after
}

/// The call is refused with that number and leaves the state as it was.
#[track_caller]
pub fn assert_refused(stated: u8, state: &mut State, call: impl FnOnce(&mut State) -> Result<(), Refusal>) {
    let before = state.versions();
    let answer = call(state).map_err(|refusal| refusal.number());
    assert_eq!(answer, Err(stated), "{before:?}");
    assert_eq!(state.versions(), before);
}
