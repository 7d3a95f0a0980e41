//! Makes signed files, and works out verdicts as a controller does: by verifying each entry over the signed part.

use std::collections::BTreeMap;

use paper::hex;

use crate::shelf::files::{Key, Root};
use crate::shelf::sha256::digest;
use crate::shelf::signer::{Public, Seed, Signature, Signer};
use crate::shelf::tree::{Tree, object, text};

/// An entry to be made: under which keyid, and with which private key. For an honest one the numbers are the same.
#[derive(Clone, Copy, Debug)]
pub struct By {
    /// The number of the keyid in the entry.
    pub keyid: usize,
    /// The number of the private key.
    pub key: usize,
}

/// An entry of a key under its own keyid.
pub fn by(key: usize) -> By {
    By { keyid: key, key }
}

/// A file with its signatures.
#[derive(Clone, Debug, PartialEq, Eq)]
pub struct File {
    /// The signed part.
    pub part: Vec<u8>,
    /// The keyids and the signatures, in file order.
    pub entries: Vec<(String, Signature)>,
}

impl File {
    /// The whole file.
    pub fn bytes(&self) -> Vec<u8> {
        let entry = |(keyid, signature): &(String, Signature)| {
            object([("keyid", text(&**keyid)), ("sig", text(hex::written(signature)))])
        };
        let entries = Tree::Array(self.entries.iter().map(entry).collect());
        let envelope = object([("signatures", entries), ("signed", object::<&str>([]))]).written();
        let before = envelope.strip_suffix(b"{}}").expect("the signed part stands last");
        [before, &self.part, b"}"].concat()
    }

    /// Where the signed part begins: one closing bracket stands behind it.
    pub fn start(&self) -> usize {
        self.bytes().len() - 1 - self.part.len()
    }

    /// The file with one byte of its signed part changed after signing: the last digit of the year in which it expires.
    /// It is a file of the same form.
    pub fn damaged(&self) -> File {
        let name = b"\"expires\":\"";
        let place = self.part.windows(name.len()).position(|window| window == name);
        let mut damaged = self.clone();
        damaged.part[place.expect("every file expires") + name.len() + 3] ^= 1;
        damaged
    }

    /// The file with the entries of another one.
    pub fn with_entries_of(&self, other: &File) -> File {
        File {
            part: self.part.clone(),
            entries: other.entries.clone(),
        }
    }
}

/// Has all private keys, the attacker's too.
pub struct Office {
    signer: Signer,
    seed: u64,
    publics: BTreeMap<usize, Public>,
    keys: BTreeMap<usize, Key>,
}

impl Office {
    /// The keys with these numbers, others for each seed.
    pub fn new(mut signer: Signer, seed: u64, numbers: impl Iterator<Item = usize>) -> Office {
        let public = |number| (number, signer.public(&private(number, seed)));
        let publics: BTreeMap<usize, Public> = numbers.map(public).collect();
        let key = |(number, public): (&usize, &Public)| (*number, Key::new(hex::written(public)));
        Office {
            keys: publics.iter().map(key).collect(),
            publics,
            signer,
            seed,
        }
    }

    /// Who signs.
    pub fn signer(&self) -> &'static str {
        self.signer.name()
    }

    /// The key with this number, as it stands in a key table.
    pub fn key(&self, number: usize) -> &Key {
        &self.keys[&number]
    }

    /// A file with these entries.
    pub fn signed(&mut self, part: &Tree, entries: &[By]) -> File {
        let part = part.written();
        let mut sign = |by: &By| {
            let signature = self.signer.sign(&private(by.key, self.seed), &part);
            (self.keys[&by.keyid].keyid.clone(), signature)
        };
        File {
            entries: entries.iter().map(&mut sign).collect(),
            part,
        }
    }

    /// The signed part of a root, with the true public keys in its table.
    pub fn root_part(&self, root: &Root) -> Tree {
        root.signed_with(|number| self.key(number))
    }

    /// The verdicts under a root's keys: "1 for verifies over the signed part under the key of that keyid, 0 for does
    /// not". A keyid that the root does not have verifies nothing.
    pub fn row(&mut self, file: &File, root: &Root) -> Vec<u8> {
        let Office {
            signer, publics, keys, ..
        } = self;
        let mut verdict = |(keyid, signature): &(String, Signature)| {
            let named = root.keys.iter().find(|(name, _)| keys[*name].keyid == *keyid);
            let verifies = named.is_some_and(|(_, value)| signer.verifies(&publics[value], &file.part, signature));
            u8::from(verifies)
        };
        file.entries.iter().map(&mut verdict).collect()
    }
}

fn private(number: usize, seed: u64) -> Seed {
    digest(format!("private key {number} of seed {seed}").as_bytes())
}

#[cfg(test)]
mod tests {
    use super::{By, File, Office, by};
    use crate::shelf::files::Root;
    use crate::shelf::signer::Signer;
    use paper::{envelope, forms, hex};

    fn office() -> Office {
        Office::new(Signer::at_hand(), 5, 1..=9)
    }

    fn root_file(office: &mut Office, entries: &[By]) -> File {
        let part = office.root_part(&Root::new(1, 2_000_000_000));
        office.signed(&part, entries)
    }

    #[test]
    fn the_file_is_what_its_parts_say() {
        let mut office = office();
        let file = root_file(&mut office, &[by(1), by(9)]);
        let bytes = file.bytes();
        let (start, part, entries) = envelope::look(&bytes).unwrap();
        assert_eq!((start, part, entries), (file.start(), &file.part[..], 2));
        let root = forms::root(&bytes).unwrap();
        for (entry, (keyid, signature)) in root.entries.iter().zip(&file.entries) {
            assert_eq!(entry.keyid, *keyid);
            assert_eq!(entry.sig, hex::written(signature));
        }
        assert_eq!(root.entries[1].keyid, office.key(9).keyid);
        assert_eq!(root.says.keys[&office.key(3).keyid], office.key(3).public);
        assert_eq!(root.says.keys.len(), 8);
    }

    #[test]
    fn damage_is_one_byte_and_the_form_stays() {
        let file = root_file(&mut office(), &[by(1)]);
        let (bytes, damaged) = (file.bytes(), file.damaged().bytes());
        let differing = bytes.iter().zip(&damaged).filter(|(one, other)| one != other).count();
        assert_eq!((differing, damaged.len()), (1, bytes.len()));
        let place = bytes.iter().zip(&damaged).position(|(one, other)| one != other);
        assert!(place.is_some_and(|place| place >= file.start()));
        assert!(forms::root(&damaged).is_ok());
    }

    #[test]
    fn verdicts_are_of_the_key_the_message_and_the_keyid() {
        let mut office = office();
        let root = Root::new(1, 2_000_000_000);
        let forged = By { keyid: 2, key: 9 };
        let file = root_file(&mut office, &[by(1), forged, by(9), by(3)]);
        assert_eq!(office.row(&file, &root), [1, 0, 0, 1]);
        assert_eq!(office.row(&file.damaged(), &root), [0, 0, 0, 0]);

        let mut other = root.clone();
        other.keys.insert(2, 9);
        assert_eq!(office.row(&file, &other), [1, 1, 0, 1]);

        let part = office.root_part(&other);
        let elsewhere = office.signed(&part, &[by(1)]);
        assert_eq!(office.row(&elsewhere, &root), [1]);
        assert_eq!(office.row(&file.with_entries_of(&elsewhere), &root), [0]);
    }
}
