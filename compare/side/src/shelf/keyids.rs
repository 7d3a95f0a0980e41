//! The keyids of a root file: "the hex digest of the canonical text of its key", or whatever else is to stand there.

use std::collections::BTreeMap;

use paper::hex;

use super::sha256::digest;
use super::tree::Tree;

/// The keyid of a key.
pub fn keyid_of(key: &Tree) -> String {
    hex::written(&digest(&key.written()))
}

/// The file with every key of its table under its true keyid. What has no key table stays as it is.
pub fn mended(file: &Tree) -> Tree {
    renamed(file, &true_keyids(file))
}

/// The true keyid for each that a root's key table has.
pub fn true_keyids(root: &Tree) -> BTreeMap<String, String> {
    let keys = key_table(root).into_iter().flatten();
    keys.map(|(keyid, key)| (keyid.clone(), keyid_of(key))).collect()
}

/// The file with other keyids, wherever they stand: in the key table, in the roles, in the entries.
pub fn renamed(file: &Tree, others: &BTreeMap<String, String>) -> Tree {
    let mut file = rename(file, others);
    if let Some(keys) = key_table_mut(&mut file) {
        keys.sort_by(|one, other| one.0.cmp(&other.0));
    }
    file
}

fn rename(tree: &Tree, others: &BTreeMap<String, String>) -> Tree {
    let other = |text: &String| others.get(text).unwrap_or(text).clone();
    match tree {
        Tree::Raw(raw) => Tree::Raw(raw.clone()),
        Tree::Text(text) => Tree::Text(other(text)),
        Tree::Array(items) => Tree::Array(items.iter().map(|item| rename(item, others)).collect()),
        Tree::Object(members) => {
            let members = members.iter();
            Tree::Object(
                members
                    .map(|(name, tree)| (other(name), rename(tree, others)))
                    .collect(),
            )
        }
    }
}

fn key_table(file: &Tree) -> Option<&Vec<(String, Tree)>> {
    match file.get("signed")?.get("keys")? {
        Tree::Object(keys) => Some(keys),
        _ => None,
    }
}

fn key_table_mut(file: &mut Tree) -> Option<&mut Vec<(String, Tree)>> {
    key_table(file)?;
    Some(file.member(&["signed", "keys"]).members())
}

#[cfg(test)]
mod tests {
    use super::{mended, renamed};
    use crate::shelf::files::{self, Root, keyid};
    use crate::shelf::tree::{number, text};
    use paper::forms;
    use paper::refusal::Refusal;
    use std::collections::BTreeMap;

    #[test]
    fn what_is_renamed_has_its_form_and_what_is_mended_its_true_keyids() {
        let file = files::file(Root::new(1, 0).signed(), &[1, 2]);
        assert_eq!(mended(&file), file);
        let others = BTreeMap::from([
            (keyid(1).to_string(), "0".repeat(64)),
            (keyid(7).to_string(), "f".repeat(64)),
        ]);
        let renamed = renamed(&file, &others);
        assert_eq!(forms::root(&renamed.written()), Err(Refusal::OtherKeyid));
        assert_eq!(mended(&renamed), file);
    }

    #[test]
    fn an_edited_key_is_mended() {
        let mut file = files::file(Root::new(1, 0).signed(), &[1]);
        file.member(&["signed", "keys", keyid(1)]).insert("~", text("more"));
        assert_eq!(forms::root(&file.written()), Err(Refusal::OtherKeyid));
        let mended = forms::root(&mended(&file).written()).unwrap();
        assert!(!mended.says.keys.contains_key(keyid(1)));
        assert!(mended.says.root.keyids.contains(&mended.entries[0].keyid));
    }

    #[test]
    fn what_is_no_root_stays_as_it_is() {
        for file in [
            number(1),
            files::file(number(1), &[]),
            files::file(files::entry(1, 0), &[]),
        ] {
            assert_eq!(mended(&file), file);
        }
    }
}
