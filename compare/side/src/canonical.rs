//! Brings a file as it is printed for people to canonical form, and says what it changed.
//!
//! Printed files have white space, members in any order, strings that go on in the next line, and commas that are missing
//! or stand before a closing bracket. Anything else that is not canonical is an error.

use std::fmt;

use paper::hex;

use crate::shelf::sha256::digest;
use crate::shelf::tree::{Tree, number, object, text};

/// What was changed, besides the white space between values.
#[derive(Debug, Default, PartialEq, Eq)]
pub struct Changes {
    /// Strings that went on in the next line, and were joined.
    pub joined_strings: usize,
    /// Commas before a closing bracket, left out.
    pub idle_commas: usize,
    /// Commas that were missing, put in.
    pub missing_commas: usize,
    /// Objects whose members were put in order.
    pub ordered_objects: usize,
}

impl fmt::Display for Changes {
    fn fmt(&self, out: &mut fmt::Formatter<'_>) -> fmt::Result {
        write!(
            out,
            "strings joined: {}, idle commas left out: {}, missing commas put in: {}, objects put in order: {}",
            self.joined_strings, self.idle_commas, self.missing_commas, self.ordered_objects
        )
    }
}

/// The value of a printed file, whose members are in order.
pub fn canonical(printed: &str) -> Result<(Tree, Changes), String> {
    let mut reader = Reader {
        text: printed,
        place: 0,
        changes: Changes::default(),
    };
    let tree = reader.value()?;
    reader.skip_white_space();
    match reader.peek() {
        None => Ok((tree, reader.changes)),
        Some(_) => reader.fail("the end"),
    }
}

/// Lists the length and the digest of another file for one of the names in a timestamp or snapshot.
pub fn list(file: &mut Tree, name: &str, other: &[u8]) -> Result<(), String> {
    let Tree::Object(members) = file else {
        return Err("not a file".to_string());
    };
    let signed = members.iter_mut().find(|member| member.0 == "signed");
    let Some((_, signed @ Tree::Object(_))) = signed else {
        return Err("no signed part".to_string());
    };
    let meta = signed.members().iter_mut().find(|member| member.0 == "meta");
    let Some((_, meta @ Tree::Object(_))) = meta else {
        return Err("nothing is listed".to_string());
    };
    let listed = meta.members().iter_mut().find(|member| member.0 == name);
    let Some((_, listed @ Tree::Object(_))) = listed else {
        return Err(format!("{name} is not listed"));
    };
    let hashes = object([("sha256", text(hex::written(&digest(other))))]);
    listed
        .members()
        .retain(|member| member.0 != "length" && member.0 != "hashes");
    listed.insert("length", number(other.len() as u64));
    listed.insert("hashes", hashes);
    Ok(())
}

struct Reader<'a> {
    text: &'a str,
    place: usize,
    changes: Changes,
}

impl Reader<'_> {
    fn value(&mut self) -> Result<Tree, String> {
        self.skip_white_space();
        match self.peek() {
            Some('{') => self.object(),
            Some('[') => self.array(),
            Some('"') => self.string().map(Tree::Text),
            _ => self.word(),
        }
    }

    fn object(&mut self) -> Result<Tree, String> {
        self.take('{')?;
        let mut members: Vec<(String, Tree)> = Vec::new();
        while !self.closes('}') {
            self.comma(!members.is_empty(), '}');
            if self.closes('}') {
                break;
            }
            let name = self.string()?;
            self.take(':')?;
            let value = self.value()?;
            if members.iter().any(|member| member.0 == name) {
                return self.fail(&format!("another name than '{name}'"));
            }
            members.push((name, value));
        }
        self.take('}')?;
        if !members.is_sorted_by(|one, other| one.0 < other.0) {
            self.changes.ordered_objects += 1;
        }
        Ok(object(members))
    }

    fn array(&mut self) -> Result<Tree, String> {
        self.take('[')?;
        let mut items = Vec::new();
        while !self.closes(']') {
            self.comma(!items.is_empty(), ']');
            if self.closes(']') {
                break;
            }
            items.push(self.value()?);
        }
        self.take(']')?;
        Ok(Tree::Array(items))
    }

    /// Passes over the comma between two values, or before the closing bracket, where it is idle.
    fn comma(&mut self, is_due: bool, close: char) {
        let comes = self.peek() == Some(',');
        if comes {
            self.place += 1;
            self.skip_white_space();
        }
        if comes && (!is_due || self.peek() == Some(close)) {
            self.changes.idle_commas += 1;
        } else if is_due && !comes {
            self.changes.missing_commas += 1;
        }
    }

    /// A string; a line break inside is left out with the white space about it.
    fn string(&mut self) -> Result<String, String> {
        self.take('"')?;
        let Some(length) = self.text[self.place..].find('"') else {
            return self.fail("the end of a string");
        };
        let inside = &self.text[self.place..self.place + length];
        if inside.contains('\\') {
            return self.fail("a string without escapes");
        }
        self.place += length + 1;
        if inside.contains('\n') {
            self.changes.joined_strings += 1;
        }
        Ok(inside.split('\n').map(str::trim).collect())
    }

    fn word(&mut self) -> Result<Tree, String> {
        let rest = &self.text[self.place..];
        let length = rest.find(|c: char| !c.is_ascii_alphanumeric()).unwrap_or(rest.len());
        let word = &rest[..length];
        let is_known = ["true", "false", "null"].contains(&word);
        if !is_known && (word.is_empty() || !word.bytes().all(|byte| byte.is_ascii_digit())) {
            return self.fail("a value");
        }
        self.place += length;
        Ok(Tree::Raw(word.to_string()))
    }

    fn closes(&mut self, close: char) -> bool {
        self.skip_white_space();
        self.peek() == Some(close)
    }

    fn take(&mut self, character: char) -> Result<(), String> {
        self.skip_white_space();
        if self.peek() != Some(character) {
            return self.fail(&format!("'{character}'"));
        }
        self.place += character.len_utf8();
        Ok(())
    }

    fn skip_white_space(&mut self) {
        let rest = &self.text[self.place..];
        self.place += rest.len() - rest.trim_start().len();
    }

    fn peek(&self) -> Option<char> {
        self.text[self.place..].chars().next()
    }

    fn fail<T>(&self, expected: &str) -> Result<T, String> {
        let line = 1 + self.text[..self.place].matches('\n').count();
        Err(format!("line {line}: {expected} was expected"))
    }
}

#[cfg(test)]
mod tests {
    use super::{Changes, canonical};

    #[test]
    fn what_printed_files_have() {
        let printed =
            "{\n \"b\": [\n  1,\n  true,\n ],\n \"a\": {\n  \"c\": \"12\n        34\"\n  }\n \"d\": null,\n}\n";
        let (tree, changes) = canonical(printed).unwrap();
        assert_eq!(tree.written(), br#"{"a":{"c":"1234"},"b":[1,true],"d":null}"#);
        let expected = Changes {
            joined_strings: 1,
            idle_commas: 2,
            missing_commas: 1,
            ordered_objects: 1,
        };
        assert_eq!(changes, expected);
    }

    #[test]
    fn what_is_canonical_stays_as_it_is() {
        let text = r#"{"a":[],"b":{"c":10}}"#;
        let (tree, changes) = canonical(text).unwrap();
        assert_eq!((tree.written(), changes), (text.into(), Changes::default()));
    }

    #[test]
    fn anything_else_is_an_error() {
        for text in [
            "",
            "{",
            "{\"a\"}",
            "{\"a\":1,\"a\":2}",
            "[1}",
            "[\"\\n\"]",
            "[-1]",
            "[1.0]",
            "[] []",
            "[tru]",
        ] {
            assert!(canonical(text).is_err(), "{text}");
        }
    }
}
