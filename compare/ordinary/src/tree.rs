//! "Text" (01): canonical JSON as a tree that borrows from the text.

use std::ops::RangeInclusive;

use common::text::{self, Fault, Reader, Text};

/// "Values: object, array, string, whole number, true, false, null."
#[derive(Debug)]
pub enum Value<'a> {
    /// `null`
    Null,
    /// `true` or `false`
    Bool(bool),
    /// A whole number of any size, as written.
    Number(&'a [u8]),
    /// A string, the escapes still on.
    String(Text<'a>),
    /// The elements in order.
    Array(Vec<Value<'a>>),
    /// The members.
    Object(Object<'a>),
}

/// The members of an object in the order of the text, in which the names rise, and the text itself.
#[derive(Debug)]
pub struct Object<'a> {
    members: Vec<(Text<'a>, Value<'a>)>,
    text: &'a [u8],
}

/// The value of a canonical text.
pub fn parse(text: &[u8]) -> Result<Value<'_>, Fault> {
    text::read_whole(text, read_value)
}

fn read_value<'a>(reader: &mut Reader<'a>) -> text::Result<Value<'a>> {
    match reader.next_byte() {
        Some(b'"') => reader.string().map(Value::String),
        Some(b'{') => read_object(reader).map(Value::Object),
        Some(b'[') => read_array(reader).map(Value::Array),
        Some(b't' | b'f') => reader.truth().map(Value::Bool),
        Some(b'n') => reader.null().map(|()| Value::Null),
        _ => reader.number().map(Value::Number),
    }
}

fn read_object<'a>(reader: &mut Reader<'a>) -> text::Result<Object<'a>> {
    let mut members = Vec::new();
    let rest = reader.rest();
    reader.object(|reader, name| {
        members.push((name, read_value(reader)?));
        Ok(())
    })?;
    let text = reader.since(rest);
    Ok(Object { members, text })
}

fn read_array<'a>(reader: &mut Reader<'a>) -> text::Result<Vec<Value<'a>>> {
    let mut elements = Vec::new();
    reader.array(|reader| {
        elements.push(read_value(reader)?);
        Ok(())
    })?;
    Ok(elements)
}

impl<'a> Value<'a> {
    /// The members, if it is an object.
    pub fn object(&self) -> Option<&Object<'a>> {
        match self {
            Value::Object(members) => Some(members),
            _ => None,
        }
    }

    /// The elements, if it is an array.
    pub fn array(&self) -> Option<&[Value<'a>]> {
        match self {
            Value::Array(elements) => Some(elements),
            _ => None,
        }
    }

    /// The string, if it is one.
    pub fn string(&self) -> Option<Text<'a>> {
        match self {
            Value::String(string) => Some(*string),
            _ => None,
        }
    }

    /// The truth value, if it is one.
    pub fn truth(&self) -> Option<bool> {
        match self {
            Value::Bool(truth) => Some(*truth),
            _ => None,
        }
    }

    /// The number, if it is one in the range.
    pub fn within(&self, range: RangeInclusive<u64>) -> Option<u64> {
        match self {
            Value::Number(written) => text::number_in(written, range),
            _ => None,
        }
    }
}

impl<'a> Object<'a> {
    /// The text, from bracket to bracket.
    pub fn text(&self) -> &'a [u8] {
        self.text
    }

    /// How many members there are.
    pub fn count(&self) -> usize {
        self.members.len()
    }

    /// The members in the order of their names.
    pub fn iter(&self) -> impl Iterator<Item = (Text<'a>, &Value<'a>)> {
        self.members.iter().map(|(name, value)| (*name, value))
    }

    /// The value of the member with this name, which has nothing to escape. Objects whose members are asked for by name
    /// are small: a scan finds them sooner than a search by halves.
    pub fn get(&self, name: &str) -> Option<&Value<'a>> {
        let member = self.members.iter().find(|(other, _)| other.raw() == name.as_bytes());
        member.map(|(_, value)| value)
    }
}

#[cfg(test)]
mod tests {
    use super::parse;

    #[test]
    fn examples_of_01() {
        assert!(parse(br#"{"a":1,"a!":2}"#).is_ok());
        for text in [r#"{"a":1,"a":2}"#, "[-0]", "[01]", "[1,]", ""] {
            assert!(parse(text.as_bytes()).is_err(), "{text}");
        }
    }

    #[test]
    fn values_are_parts_of_the_text() {
        let text = br#"{"\"":[true,null,"\\x"],"b":{"c":-10,"d":7}}"#;
        let value = parse(text).unwrap();
        let members = value.object().unwrap();
        let (name, elements) = members.iter().next().unwrap();
        assert!(name.is(b"\"") && name.length() == 1);
        let elements = elements.array().unwrap();
        assert_eq!(elements[0].truth(), Some(true));
        assert!(elements[1].string().is_none() && elements[2].string().unwrap().is(b"\\x"));
        let inner = members.get("b").unwrap().object().unwrap();
        assert_eq!(inner.get("c").unwrap().within(0..=9), None);
        assert_eq!(inner.get("d").unwrap().within(0..=9), Some(7));
        assert!(inner.get("e").is_none() && inner.count() == 2);
        assert_eq!(inner.text(), br#"{"c":-10,"d":7}"#);
        assert_eq!(members.text(), text);
    }
}
