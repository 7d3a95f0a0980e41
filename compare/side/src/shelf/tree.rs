//! A text before it is written. Nothing keeps the names of a tree in order or apart: it can be a text that is not
//! canonical.

use paper::json::{self, Value};

use crate::groups::names::escaped;

/// A value.
#[derive(Clone, Debug, PartialEq, Eq)]
pub enum Tree {
    /// A number or word, or anything else, as it is to be written.
    Raw(String),
    /// A string; the escapes are made when it is written.
    Text(String),
    /// The items.
    Array(Vec<Tree>),
    /// The members in the order in which they are to be written.
    Object(Vec<(String, Tree)>),
}

/// The way to a value: the number of the item or member on each level.
pub type Place = Vec<usize>;

/// A number.
pub fn number(number: u64) -> Tree {
    Tree::Raw(number.to_string())
}

/// A string.
pub fn text(text: impl Into<String>) -> Tree {
    Tree::Text(text.into())
}

/// An object whose members are put in order.
pub fn object<N: Into<String>>(members: impl IntoIterator<Item = (N, Tree)>) -> Tree {
    let mut members: Vec<_> = members.into_iter().map(|(name, tree)| (name.into(), tree)).collect();
    members.sort_by(|one, other| one.0.cmp(&other.0));
    Tree::Object(members)
}

impl Tree {
    /// The tree of a canonical text.
    pub fn read(text: &[u8]) -> Option<Tree> {
        json::parse(text).ok().map(|value| Tree::of(&value))
    }

    fn of(value: &Value) -> Tree {
        match value {
            Value::String(string) => text(&**string),
            Value::Array(items) => Tree::Array(items.iter().map(Tree::of).collect()),
            Value::Object(members) => object(members.iter().map(|(name, value)| (&**name, Tree::of(value)))),
            Value::Null | Value::Bool(_) | Value::Number(_) => Tree::Raw(value.written()),
        }
    }

    /// The text.
    pub fn written(&self) -> Vec<u8> {
        let mut written = String::new();
        self.write(&mut written);
        written.into_bytes()
    }

    fn write(&self, written: &mut String) {
        match self {
            Tree::Raw(raw) => written.push_str(raw),
            Tree::Text(text) => write_text(text, written),
            Tree::Array(items) => write_all(items, '[', ']', written, |item, written| item.write(written)),
            Tree::Object(members) => write_all(members, '{', '}', written, |(name, tree), written| {
                write_text(name, written);
                written.push(':');
                tree.write(written);
            }),
        }
    }

    /// The places of all values, this one's own first.
    pub fn places(&self) -> Vec<Place> {
        let mut places = vec![Vec::new()];
        for (number, child) in self.children().into_iter().enumerate() {
            let below = child.places().into_iter();
            places.extend(below.map(|place| [vec![number], place].concat()));
        }
        places
    }

    fn children(&self) -> Vec<&Tree> {
        match self {
            Tree::Array(items) => items.iter().collect(),
            Tree::Object(members) => members.iter().map(|(_, tree)| tree).collect(),
            _ => Vec::new(),
        }
    }

    /// The value at a place of this tree.
    pub fn at(&mut self, place: &[usize]) -> &mut Tree {
        match place {
            [] => self,
            [number, rest @ ..] => match self {
                Tree::Array(items) => items[*number].at(rest),
                Tree::Object(members) => members[*number].1.at(rest),
                _ => panic!("nothing is inside of a string, number or word"),
            },
        }
    }

    /// The member with this name, if it is an object that has one.
    pub fn get(&self, name: &str) -> Option<&Tree> {
        match self {
            Tree::Object(members) => members.iter().find(|member| member.0 == name).map(|(_, tree)| tree),
            _ => None,
        }
    }

    /// The value that is reached by these names.
    pub fn member(&mut self, names: &[&str]) -> &mut Tree {
        match names {
            [] => self,
            [name, rest @ ..] => {
                let member = self.members().iter_mut().find(|member| member.0 == *name);
                let (_, tree) = member.unwrap_or_else(|| panic!("no member {name}"));
                tree.member(rest)
            }
        }
    }

    /// The members of an object.
    pub fn members(&mut self) -> &mut Vec<(String, Tree)> {
        match self {
            Tree::Object(members) => members,
            _ => panic!("not an object"),
        }
    }

    /// The items of an array.
    pub fn items(&mut self) -> &mut Vec<Tree> {
        match self {
            Tree::Array(items) => items,
            _ => panic!("not an array"),
        }
    }

    /// Puts a member into an object, where it belongs.
    pub fn insert(&mut self, name: impl Into<String>, tree: Tree) {
        let members = self.members();
        members.push((name.into(), tree));
        members.sort_by(|one, other| one.0.cmp(&other.0));
    }
}

fn write_all<T>(parts: &[T], open: char, close: char, written: &mut String, write_one: impl Fn(&T, &mut String)) {
    written.push(open);
    for (place, part) in parts.iter().enumerate() {
        if place > 0 {
            written.push(',');
        }
        write_one(part, written);
    }
    written.push(close);
}

fn write_text(text: &str, written: &mut String) {
    written.push('"');
    written.push_str(&escaped(text));
    written.push('"');
}

#[cfg(test)]
mod tests {
    use super::{Tree, number, object, text};

    #[test]
    fn written_in_canonical_form() {
        let tree = object([
            ("b", Tree::Array(vec![number(1), text("\"\\")])),
            ("a", Tree::Raw("null".to_string())),
        ]);
        assert_eq!(tree.written(), br#"{"a":null,"b":[1,"\"\\"]}"#);
        assert_eq!(Tree::read(&tree.written()), Some(tree));
        assert_eq!(Tree::read(b"{ }"), None);
    }

    #[test]
    fn every_place_is_found() {
        let mut tree = object([
            ("a", Tree::Array(vec![number(1), object([("c", number(2))])])),
            ("b", number(3)),
        ]);
        let places = tree.places();
        assert_eq!(places.len(), 6);
        assert_eq!(*tree.at(&places[4]), number(2));
        assert_eq!(*tree.at(&places[5]), number(3));
        assert_eq!(*tree.member(&["b"]), number(3));
    }
}
