//! The envelope of a file: its signature entries and its signed part (refusals 1 to 3).

use std::ops::Range;

use crate::file;
use crate::hex::{self, is_hex};
use crate::json::{Object, Value};
use crate::refusal::Refusal;

/// "signatures", at most 16 entries
const MOST_ENTRIES: usize = 16;

/// A signature entry, both in hex.
#[derive(Clone, Debug, PartialEq, Eq)]
pub struct Entry {
    /// 64 digits.
    pub keyid: String,
    /// 128 digits.
    pub sig: String,
}

/// A file whose envelope has its form.
#[derive(Clone, Debug, PartialEq, Eq)]
pub struct Envelope {
    /// The entries in file order.
    pub entries: Vec<Entry>,
    /// The members of the signed part.
    pub signed: Object,
    /// Where the signed part stands in the file.
    pub place: Range<usize>,
}

/// Reads the envelope and asks for nothing else.
pub fn open(file: &[u8]) -> Result<Envelope, Refusal> {
    let value = file::read(file)?;
    read(&value).ok_or(Refusal::BrokenForm)
}

/// "Looking into a file": the part of the caller's own bytes that is signed, from which place on, and the number of
/// entries.
pub fn look(file: &[u8]) -> Result<(usize, &[u8], usize), Refusal> {
    let envelope = open(file)?;
    Ok((envelope.place.start, &file[envelope.place], envelope.entries.len()))
}

/// "One entry's keyid and signature", "its place counted from 0".
pub fn entry(file: &[u8], place: u64) -> Result<Entry, Refusal> {
    let entries = open(file)?.entries;
    let entry = entries.into_iter().zip(0..).find(|(_, number)| *number == place);
    entry.map(|(entry, _)| entry).ok_or(Refusal::NotListed)
}

/// `None` if the form is broken.
fn read(value: &Value) -> Option<Envelope> {
    let members = value.object()?;
    let entries = members.get("signatures")?.array()?;
    if entries.len() > MOST_ENTRIES {
        return None;
    }
    Some(Envelope {
        entries: entries.iter().map(read_entry).collect::<Option<_>>()?,
        signed: members.get("signed")?.object()?.clone(),
        place: place_of("signed", members)?,
    })
}

fn read_entry(value: &Value) -> Option<Entry> {
    let members = value.object()?;
    Some(Entry {
        keyid: hex_member(members, "keyid", hex::OF_32_BYTES)?,
        sig: hex_member(members, "sig", hex::OF_64_BYTES)?,
    })
}

/// A member that is so many digits of hex.
pub(crate) fn hex_member(members: &Object, name: &str, digits: usize) -> Option<String> {
    let text = members.get(name)?.string()?;
    is_hex(text, digits).then(|| text.to_string())
}

/// Where the value of a member stands in the text of an object. A canonical text has one spelling, so what stands
/// before it is written again and measured.
fn place_of(name: &str, members: &Object) -> Option<Range<usize>> {
    let value = members.get(name)?;
    // With null in the value's place, `null}` stands behind the beginning.
    let before = members.iter().filter(|(other, _)| other.as_str() < name);
    let mut beginning: Object = before.map(|(name, value)| (name.clone(), value.clone())).collect();
    beginning.insert(name.to_string(), Value::Null);
    let start = Value::Object(beginning).written().len() - "null}".len();
    Some(start..start + value.written().len())
}

#[cfg(test)]
mod tests {
    use super::{entry, look};
    use crate::refusal::Refusal;
    use crate::shelf::{keyid, sig};

    fn entry_text(number: usize) -> String {
        format!(r#"{{"keyid":"{}","sig":"{}"}}"#, keyid(number), sig(number))
    }

    fn with_entries(entries: &[String]) -> String {
        format!(r#"{{"signatures":[{}],"signed":{{}}}}"#, entries.join(","))
    }

    #[test]
    fn example_of_the_document() {
        let file = br#"{"signatures":[],"signed":{}}"#;
        assert_eq!(look(file), Ok((26, &b"{}"[..], 0)));
    }

    #[test]
    fn the_signed_part_is_a_part_of_the_callers_bytes() {
        let file = format!(
            r#"{{"a\"":[1,"\\"],"signatures":[{}],"signed":{{"x":{{"signed":{{}}}}}},"signed!":0,"z":{{}}}}"#,
            entry_text(1)
        );
        let (start, part, entries) = look(file.as_bytes()).unwrap();
        assert_eq!(part, br#"{"x":{"signed":{}}}"#);
        assert_eq!(entries, 1);
        assert!(std::ptr::eq(&file.as_bytes()[start..start + part.len()], part));
    }

    #[test]
    fn refusals_of_a_look() {
        assert_eq!(look(&[b' '; 32_769]), Err(Refusal::TooLong));
        assert_eq!(look(b""), Err(Refusal::NotCanonical));
        assert_eq!(look(b"{ }"), Err(Refusal::NotCanonical));
        for broken in [
            "0",
            "[]",
            "{}",
            r#"{"signatures":[]}"#,
            r#"{"signed":{}}"#,
            r#"{"signatures":{},"signed":{}}"#,
            r#"{"signatures":[],"signed":[]}"#,
            r#"{"signatures":[0],"signed":{}}"#,
            r#"{"signatures":[{}],"signed":{}}"#,
            r#"{"Signatures":[],"signed":{}}"#,
        ] {
            assert_eq!(look(broken.as_bytes()), Err(Refusal::BrokenForm), "{broken}");
        }
    }

    #[test]
    fn entries_are_keyid_and_sig() {
        let sound = entry_text(1);
        for (old, new) in [
            ("keyid\":\"", "keyid\":\"0"),
            ("sig\":\"", "sig\":\"0"),
            ("\"keyid\"", "\"keyie\""),
            ("\"sig\"", "\"sih\""),
            (&keyid(1)[..1], "A"),
            (&sig(1), &keyid(1)),
        ] {
            let broken = with_entries(&[sound.replacen(old, new, 1)]);
            assert_eq!(look(broken.as_bytes()), Err(Refusal::BrokenForm), "{broken}");
        }
        let more = sound.replacen('{', r#"{"a":[],"#, 1);
        assert_eq!(look(with_entries(&[more]).as_bytes()).unwrap().2, 1);
    }

    #[test]
    fn at_most_16_entries() {
        let entries: Vec<String> = (0..17).map(entry_text).collect();
        assert_eq!(look(with_entries(&entries[..16]).as_bytes()).unwrap().2, 16);
        assert_eq!(look(with_entries(&entries).as_bytes()), Err(Refusal::BrokenForm));
    }

    #[test]
    fn entries_are_counted_from_0() {
        let file = with_entries(&[entry_text(1), entry_text(2), entry_text(1)]);
        for (place, number) in [(0, 1), (1, 2), (2, 1)] {
            let entry = entry(file.as_bytes(), place).unwrap();
            assert_eq!((entry.keyid, entry.sig), (keyid(number), sig(number)));
        }
        for place in [3, 16, u64::MAX] {
            assert_eq!(entry(file.as_bytes(), place), Err(Refusal::NotListed));
        }
        assert_eq!(entry(b"{}", 0), Err(Refusal::BrokenForm));
        assert_eq!(entry(b"", 0), Err(Refusal::NotCanonical));
    }
}
