//! Files with one edit: a value that is wrong where it stands, a member removed, doubled, renamed or added.

use crate::random::Random;
use crate::shelf::tree::{Place, Tree, number, object, text};

/// Values each of which is wrong in most places, and right in some.
pub fn wrong_values() -> Vec<Tree> {
    let hex = |digits: usize| "0123456789abcdef".repeat(9)[..digits].to_string();
    let raw = [
        "null",
        "true",
        "false",
        "0",
        "1",
        "2",
        "-1",
        "17",
        "2147483647",
        "2147483648",
        "4294967295",
        "4294967296",
        "4294967297",
        "20260101120000",
        "9007199254740991",
        "9007199254740992",
        "9007199254740993",
        "9223372036854775807",
        "18446744073709551615",
        "18446744073709551617",
        "340282366920938463463374607431768211457",
    ];
    let texts = [
        String::new(),
        "a".to_string(),
        "1".to_string(),
        "1.".to_string(),
        "1.0\"\\".to_string(),
        "2.0".to_string(),
        "10".to_string(),
        "root".to_string(),
        "timestamp".to_string(),
        "snapshot".to_string(),
        "targets".to_string(),
        "Ed25519".to_string(),
        "ed25519".to_string(),
        "2024-02-29T23:59:59Z".to_string(),
        "2023-02-29T23:59:59Z".to_string(),
        "2024-02-29T23:59:59Z ".to_string(),
        "\"024-02-29T23:59:59Z".to_string(),
        hex(63),
        hex(64),
        hex(64).to_uppercase(),
        hex(65),
        format!("{}g", hex(63)),
        format!("{}\"", hex(63)),
        format!("{}\u{e4}", hex(62)),
        hex(127),
        hex(128),
        hex(128).to_uppercase(),
        hex(129),
    ];
    let containers = [
        Tree::Array(Vec::new()),
        object::<&str>([]),
        Tree::Array(vec![number(0)]),
        Tree::Array(vec![text(hex(64))]),
        object([("a", number(0))]),
        object([("version", number(1))]),
        object([("targets.json", object([("version", number(1))]))]),
    ];
    let raw = raw.into_iter().map(|raw| Tree::Raw(raw.to_string()));
    raw.chain(texts.into_iter().map(text)).chain(containers).collect()
}

/// Every file that one edit makes of this one.
pub fn all(file: Tree) -> impl Iterator<Item = Tree> {
    let wrong = wrong_values();
    file.places().into_iter().flat_map(move |place| {
        let edited = |edit: &dyn Fn(&mut Tree)| {
            let mut mutant = file.clone();
            edit(&mut mutant);
            mutant
        };
        let replaced = wrong
            .iter()
            .map(|value| edited(&|mutant| *mutant.at(&place) = value.clone()));
        let others = EDITS.iter().map(|edit| edited(&|mutant| edit(mutant, &place)));
        let mutants = replaced.chain(others).filter(|mutant| *mutant != file);
        mutants.collect::<Vec<_>>()
    })
}

/// A file that some edit makes of this one.
pub fn any(file: &Tree, random: &mut Random) -> Tree {
    let mut mutant = file.clone();
    let places = file.places();
    let place = &places[random.below(places.len())];
    if random.one_in(2) {
        let wrong = wrong_values();
        *mutant.at(place) = wrong[random.below(wrong.len())].clone();
    } else {
        random.pick(EDITS)(&mut mutant, place);
    }
    mutant
}

/// An edit at a place. Where it has no meaning it changes nothing.
type Edit = fn(&mut Tree, &Place);

const EDITS: &[Edit] = &[
    remove,
    double,
    swap_with_next,
    |file, place| rename(file, place, |name| format!("{name}!")),
    |file, place| rename(file, place, |name| format!("{name}\"")),
    |file, place| rename(file, place, |name| format!("\\{name}")),
    |file, place| rename(file, place, |name| name.to_uppercase()),
    |file, place| rename(file, place, |name| name.chars().skip(1).collect()),
    |file, place| rename(file, place, without_last),
    |file, place| rename(file, place, |_| String::new()),
    rename_in_place,
    |file, place| add_member(file, place, ""),
    |file, place| add_member(file, place, "a\"\\"),
    |file, place| add_member(file, place, "~"),
    |file, place| add_member(file, place, "sha512"),
    add_item,
];

fn without_last(name: &str) -> String {
    let mut name = name.to_string();
    name.pop();
    name
}

/// The value around the one at a place, and the number of this one in it.
fn parent<'a>(file: &'a mut Tree, place: &Place) -> Option<(&'a mut Tree, usize)> {
    let (number, above) = place.split_last()?;
    Some((file.at(above), *number))
}

fn remove(file: &mut Tree, place: &Place) {
    match parent(file, place) {
        Some((Tree::Array(items), number)) => drop(items.remove(number)),
        Some((Tree::Object(members), number)) => drop(members.remove(number)),
        _ => {}
    }
}

fn double(file: &mut Tree, place: &Place) {
    match parent(file, place) {
        Some((Tree::Array(items), number)) => items.insert(number, items[number].clone()),
        Some((Tree::Object(members), number)) => members.insert(number, members[number].clone()),
        _ => {}
    }
}

fn swap_with_next(file: &mut Tree, place: &Place) {
    match parent(file, place) {
        Some((Tree::Array(items), number)) if number + 1 < items.len() => items.swap(number, number + 1),
        Some((Tree::Object(members), number)) if number + 1 < members.len() => members.swap(number, number + 1),
        _ => {}
    }
}

/// Gives a member another name and puts it where that belongs. A name that is there already is then there twice.
fn rename(file: &mut Tree, place: &Place, new_name: impl Fn(&str) -> String) {
    if let Some((object @ Tree::Object(_), number)) = parent(file, place) {
        let (name, value) = object.members().remove(number);
        object.insert(new_name(&name), value);
    }
}

/// Gives a member another name and leaves it where it stands.
fn rename_in_place(file: &mut Tree, place: &Place) {
    if let Some((Tree::Object(members), number)) = parent(file, place) {
        members[number].0 = "a".to_string();
    }
}

fn add_member(file: &mut Tree, place: &Place, name: &str) {
    let object = file.at(place);
    if let Tree::Object(_) = object {
        object.insert(name, Tree::Array(vec![number(1), text("\"\\")]));
    }
}

fn add_item(file: &mut Tree, place: &Place) {
    if let Tree::Array(items) = file.at(place) {
        items.push(number(1));
    }
}

#[cfg(test)]
mod tests {
    use super::{all, wrong_values};
    use crate::shelf::tree::{number, object};

    #[test]
    fn every_value_is_replaced_and_every_member_edited() {
        let mutants: Vec<_> = all(object([("a", number(0)), ("b", number(9))])).collect();
        let written: Vec<String> = mutants
            .iter()
            .map(|mutant| String::from_utf8(mutant.written()).unwrap())
            .collect();
        for expected in [
            r#"null"#,
            r#"{"a":null,"b":9}"#,
            r#"{"a":0,"b":[]}"#,
            r#"{"b":9}"#,
            r#"{"a":0,"a":0,"b":9}"#,
            r#"{"a":0,"b":9,"b":9}"#,
            r#"{"a!":0,"b":9}"#,
            r#"{"a":0,"b\"":9}"#,
            r#"{"b":9,"a":0}"#,
            r#"{"":[1,"\"\\"],"a":0,"b":9}"#,
        ] {
            assert!(written.iter().any(|text| text == expected), "{expected}");
        }
        assert!(mutants.len() > 3 * wrong_values().len());
    }
}
