//! The files printed in documents 000 and 003, in canonical form, played as histories. The scripts stand beside the files
//! and state every answer.

use super::all_of;
use crate::calls::Line;
use crate::compare::{Case, Group};

/// The scripts.
const SCRIPTS: [&str; 2] = [
    include_str!("../../../published/000.script"),
    include_str!("../../../published/003.script"),
];

/// Begins a line that states the answer to the call before it.
const STATED: &str = "#= ";

/// The group.
pub fn groups() -> Vec<Group> {
    vec![Group {
        name: "published examples",
        calls: &[
            "text",
            "look",
            "entry",
            "key",
            "install",
            "cycle",
            "root",
            "timestamp",
            "snapshot",
            "targets",
            "find",
            "image",
            "sha256",
            "state",
        ],
        cases: |_| all_of(SCRIPTS.into_iter().flat_map(calls).map(case).collect()),
        least: 110,
        shares: &[("install 0", 1), ("targets 0", 1), ("find 0", 2), ("sha256", 5)],
        complete: &[],
        renewed: false,
    }]
}

/// The calls of a script, each with the answer stated after it.
fn calls(script: &str) -> impl Iterator<Item = (&str, &str)> {
    let following = script.lines().skip(1);
    script
        .lines()
        .zip(following)
        .filter_map(|(line, following)| Some((line, following.strip_prefix(STATED)?)))
}

fn case((line, stated): (&str, &str)) -> Case {
    Case::stated(Line::Raw(line.as_bytes().to_vec()), stated)
}

#[cfg(test)]
mod tests {
    use super::{SCRIPTS, calls};
    use crate::canonical::{canonical, list};
    use crate::folder;
    use crate::shelf::keyids::{keyid_of, renamed, true_keyids};
    use crate::shelf::tree::Tree;
    use std::collections::BTreeSet;
    use std::fs;

    const ROLES: [&str; 4] = ["root", "timestamp", "snapshot", "targets"];

    fn content(name: &str) -> Vec<u8> {
        let path = folder().join(name);
        fs::read(&path).unwrap_or_else(|error| panic!("{}: {error}", path.display()))
    }

    fn printed(document: &str, role: &str) -> Tree {
        let printed = String::from_utf8(content(&format!("{document}-{role}.printed"))).unwrap();
        let (file, _) = canonical(&printed).unwrap();
        file
    }

    #[test]
    fn the_files_are_the_canonical_form_of_the_printed_ones() {
        for document in ["000", "003"] {
            for role in ROLES {
                let file = printed(document, role).written();
                assert_eq!(content(&format!("{document}-{role}.json")), file);
            }
        }
    }

    #[test]
    fn the_fitting_files_differ_from_the_printed_ones_in_keyids_and_what_is_listed_alone() {
        let mut timestamp = printed("003", "timestamp");
        list(&mut timestamp, "snapshot.json", &content("003-snapshot.json")).unwrap();
        assert_eq!(content("003-timestamp-fitting.json"), timestamp.written());

        let true_keyids = true_keyids(&printed("000", "root"));
        for role in ROLES {
            let mut file = renamed(&printed("000", role), &true_keyids);
            if role == "timestamp" {
                list(&mut file, "snapshot.json", &content("000-snapshot-fitting.json")).unwrap();
            }
            assert_eq!(content(&format!("000-{role}-fitting.json")), file.written());
        }
    }

    #[test]
    fn printed_keyids_are_true_in_003_and_without_the_scheme_in_000() {
        let mut keyids = BTreeSet::new();
        for document in ["000", "003"] {
            let mut root = printed(document, "root");
            for (keyid, mut key) in root.member(&["signed", "keys"]).members().clone() {
                keyids.insert(keyid_of(&key));
                if document == "000" {
                    key.members().retain(|member| member.0 != "scheme");
                }
                assert_eq!(keyid, keyid_of(&key));
            }
        }
        assert_eq!(keyids.len(), 4, "both documents print the same four keys");
    }

    #[test]
    fn every_call_has_its_answer_stated() {
        for script in SCRIPTS {
            let lines = script.lines().filter(|line| !line.is_empty() && !line.starts_with('#'));
            assert_eq!(lines.count(), calls(script).count());
        }
    }
}
