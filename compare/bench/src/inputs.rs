//! The texts and files that are measured. Each is made for several shelves, which differ in keys, digests and paths.

use std::collections::BTreeMap;

use side::random::Random;
use side::shelf::files::{Header, LONGEST, Listed, Role, Root, Snapshot, Targets, Timestamp, file, padded};
use side::shelf::sha256::digest;
use side::shelf::tree::{Tree, object, text};

use crate::calls::{Bytes, Call};

/// Well before the files expire.
const NOW: i64 = 1_800_000_000;
const EXPIRES: i64 = 1_900_000_000;

/// A shelf's keys have numbers of their own.
const KEYS_OF_A_SHELF: usize = 16;

/// How large the files of a release are.
pub struct Size {
    /// Keys in the table.
    pub keys: usize,
    /// Keys that each role names.
    pub role_keys: usize,
    /// How many have to sign for each role, and do.
    pub signers: usize,
    /// Names in a snapshot, each with length and hashes.
    pub names: usize,
    /// Bytes of the targets file.
    pub targets: usize,
    /// Whether each image has a second hash and a member that no form names.
    pub other_members: bool,
    /// Bytes of the timestamp, if it is padded by an unknown member.
    pub timestamp: Option<usize>,
}

/// Files of the middle size.
pub const MIDDLE: Size = Size {
    keys: 8,
    role_keys: 2,
    signers: 2,
    names: 4,
    targets: 8_192,
    other_members: false,
    timestamp: None,
};

/// Files at the limits of the forms.
pub const LARGE: Size = Size {
    keys: KEYS_OF_A_SHELF,
    role_keys: KEYS_OF_A_SHELF,
    signers: KEYS_OF_A_SHELF,
    names: 32,
    targets: LONGEST,
    other_members: false,
    timestamp: None,
};

/// The files of one version on a shelf, as they are offered.
pub struct Release {
    /// A verdict of 1 for every entry of any of them.
    row: Bytes,
    root: Bytes,
    timestamp: Bytes,
    snapshot: Bytes,
    targets: Bytes,
    paths: Vec<String>,
}

impl Release {
    /// The release of this version.
    pub fn new(shelf: usize, version: u64, size: &Size) -> Release {
        let maker = Maker { shelf, version, size };
        let (targets, paths) = maker.targets();
        let snapshot = maker.snapshot(&targets);
        Release {
            row: vec![1; size.signers].into(),
            root: maker.root().into(),
            timestamp: maker.timestamp(&snapshot).into(),
            snapshot: snapshot.into(),
            targets: targets.into(),
            paths,
        }
    }

    /// All steps from the factory on, up to the targets file.
    pub fn installed(&self) -> Vec<Call> {
        let install = Call::Install(self.root.clone(), self.row.clone(), NOW);
        vec![install, self.timestamp(), self.snapshot(), self.targets()]
    }

    /// A whole update: new cycle, root, timestamp, snapshot, targets and one find. The cycle is later than the install, so
    /// it is accepted (A8) and sets a time.
    pub fn update(&self) -> Vec<Call> {
        let root = Call::Root(self.root.clone(), self.row.clone());
        let steps = [
            Call::NewCycle(NOW + 1),
            root,
            self.timestamp(),
            self.snapshot(),
            self.targets(),
        ];
        steps.into_iter().chain(self.finds(1)).collect()
    }

    /// So many finds, of paths from all over the list.
    pub fn finds(&self, count: usize) -> Vec<Call> {
        let find = |number: usize| {
            let path = &self.paths[(2 * number + 1) * self.paths.len() / (2 * count)];
            Call::Find(self.targets.clone(), path.as_bytes().into())
        };
        (0..count).map(find).collect()
    }

    /// The text of the targets file.
    pub fn targets_text(&self) -> Call {
        Call::Text(self.targets.clone())
    }

    fn timestamp(&self) -> Call {
        Call::Timestamp(self.timestamp.clone(), self.row.clone())
    }

    fn snapshot(&self) -> Call {
        Call::Snapshot(self.snapshot.clone(), self.row.clone())
    }

    fn targets(&self) -> Call {
        Call::Targets(self.targets.clone(), self.row.clone())
    }
}

/// Makes the files of a release.
struct Maker<'a> {
    shelf: usize,
    version: u64,
    size: &'a Size,
}

impl Maker<'_> {
    fn root(&self) -> Vec<u8> {
        let role = || Role::new(self.keys(self.size.role_keys), self.size.signers as u64);
        let keys = self.keys(self.size.keys);
        let root = Root {
            header: self.header(),
            consistent_snapshot: false,
            keys: keys.into_iter().map(|key| (key, key)).collect(),
            root: role(),
            timestamp: role(),
            snapshot: role(),
            targets: role(),
        };
        self.signed(root.signed()).written()
    }

    fn timestamp(&self, snapshot: &[u8]) -> Vec<u8> {
        let timestamp = Timestamp {
            header: self.header(),
            snapshot: Listed::whole(self.version, snapshot),
        };
        let file = self.signed(timestamp.signed());
        match self.size.timestamp {
            Some(length) => padded(&file, length, true),
            None => file.written(),
        }
    }

    /// `targets.json`, and other names of 32 bytes.
    fn snapshot(&self, targets: &[u8]) -> Vec<u8> {
        let name = |number| format!("delegated-role-{:03}-{number:08}.json", self.shelf);
        let listed = |name: String| (name.clone(), Listed::whole(1, name.as_bytes()));
        let mut meta: BTreeMap<_, _> = (1..self.size.names).map(name).map(listed).collect();
        meta.insert("targets.json".to_string(), Listed::whole(self.version, targets));
        let header = self.header();
        self.signed(Snapshot { header, meta }.signed()).written()
    }

    /// As many images as the bytes have room for (the rest is padding), and their paths.
    fn targets(&self) -> (Vec<u8>, Vec<String>) {
        let fits = |count: &usize| shortest_padded(&self.targets_of(*count)) <= self.size.targets;
        let counts: Vec<usize> = (0..=256).collect();
        let most = counts.partition_point(fits) - 1;
        let mut paths: Vec<String> = (1..=most).map(|number| self.path(number)).collect();
        paths.sort();
        (padded(&self.targets_of(most), self.size.targets, true), paths)
    }

    fn targets_of(&self, count: usize) -> Tree {
        let listed = |path: String| {
            let sha256 = digest(path.as_bytes());
            let length = 1_000_000 + u64::from(sha256[0]) * 4_321;
            (path, (length, sha256))
        };
        let paths = (1..=count).map(|number| self.path(number));
        let targets = Targets {
            header: self.header(),
            targets: paths.map(listed).collect(),
        };
        let mut signed = targets.signed();
        if self.size.other_members {
            for (path, image) in signed.member(&["targets"]).members() {
                let sha512: String = digest(path.as_bytes())
                    .iter()
                    .map(|byte| format!("{byte:02x}").repeat(2))
                    .collect();
                image.member(&["hashes"]).insert("sha512", text(sha512));
                image.insert("custom", object([("hardware", text("gate-controller"))]));
            }
        }
        self.signed(signed)
    }

    fn path(&self, number: usize) -> String {
        format!(
            "images/gate-controller/v{}.2.{number}/firmware-{number:03}.bin",
            self.shelf
        )
    }

    fn header(&self) -> Header {
        Header::new(self.version, EXPIRES)
    }

    /// The first keys of the shelf.
    fn keys(&self, count: usize) -> Vec<usize> {
        let first = self.shelf * KEYS_OF_A_SHELF;
        (first..first + count).collect()
    }

    fn signed(&self, signed: Tree) -> Tree {
        file(signed, &self.keys(self.size.signers))
    }
}

/// How long the file is with an empty padding.
fn shortest_padded(file: &Tree) -> usize {
    file.written().len() + r#","~":"""#.len()
}

/// So many bytes to be digested.
pub fn message(shelf: usize, length: usize) -> Call {
    let mut random = Random::new(shelf as u64, "messages that are measured");
    Call::Sha256((0..length).map(|_| random.byte()).collect())
}

/// Strings of plain ASCII.
pub fn plain_strings(shelf: usize) -> Call {
    let animals = ["cow", "fox", "goat", "horse", "hedgehog"];
    array_of(shelf, |random| {
        let (one, other) = (random.pick(&animals), random.pick(&animals));
        text(format!("the quick brown {one} number 17 jumps over the lazy {other}"))
    })
}

/// Strings of nothing but escapes.
pub fn dense_escapes(shelf: usize) -> Call {
    array_of(shelf, |random| {
        let length = random.between(16, 48);
        text((0..length).map(|_| random.pick(&['"', '\\'])).collect::<String>())
    })
}

/// Strings of characters with two, three and four bytes.
pub fn multi_byte(shelf: usize) -> Call {
    let characters = ['\u{e4}', '\u{3b1}', '\u{20ac}', '\u{6f22}', '\u{1f404}'];
    array_of(shelf, |random| {
        let length = random.between(6, 18);
        text((0..length).map(|_| random.pick(&characters)).collect::<String>())
    })
}

/// Numbers, words, short strings and small objects and arrays.
pub fn small_values(shelf: usize) -> Call {
    let values = [
        "0",
        "4096",
        "true",
        "false",
        "null",
        r#""x""#,
        r#"{"a":-17,"b":[]}"#,
        "[1,[2]]",
        "{}",
    ];
    array_of(shelf, |random| Tree::Raw(random.pick(&values).to_string()))
}

/// An array of such elements that fills a file to the last byte; the last element is padding.
fn array_of(shelf: usize, element: impl Fn(&mut Random) -> Tree) -> Call {
    let mut random = Random::new(shelf as u64, "texts that are measured");
    let mut written = b"[".to_vec();
    let room = LONGEST - "\"\"]".len();
    loop {
        let next = element(&mut random).written();
        if written.len() + next.len() + 1 > room {
            break;
        }
        written.extend_from_slice(&next);
        written.push(b',');
    }
    written.push(b'"');
    written.resize(LONGEST - 2, b'x');
    written.extend_from_slice(b"\"]");
    Call::Text(written.into())
}

#[cfg(test)]
mod tests {
    use super::{Call, LARGE, LONGEST, Release, Size, dense_escapes, message, multi_byte, plain_strings, small_values};
    use paper::forms;
    use std::collections::BTreeSet;

    #[test]
    fn texts_are_canonical_and_as_long_as_a_file_may_be() {
        for make in [plain_strings, dense_escapes, multi_byte, small_values] {
            let texts = [0, 1].map(|shelf| match make(shelf) {
                Call::Text(text) => text,
                call => panic!("{call:?}"),
            });
            assert_ne!(texts[0], texts[1]);
            for text in texts {
                assert_eq!(text.len(), LONGEST);
                assert!(paper::json::parse(&text).is_ok());
            }
        }
    }

    #[test]
    fn messages_differ_from_shelf_to_shelf() {
        let messages = [0, 1].map(|shelf| match message(shelf, 65_536) {
            Call::Sha256(message) => message,
            call => panic!("{call:?}"),
        });
        assert_ne!(messages[0], messages[1]);
        assert_eq!(messages.map(|message| message.len()), [65_536; 2]);
    }

    #[test]
    fn large_files_are_at_the_limits() {
        let release = Release::new(3, 1, &LARGE);
        // A root is read only if its keyids are true.
        let root = forms::root(&release.root).unwrap();
        assert_eq!((root.entries.len(), root.says.keys.len()), (16, 16));
        assert_eq!(root.says.snapshot.keyids.len(), 16);
        let snapshot = forms::snapshot(&release.snapshot).unwrap().says;
        assert_eq!(snapshot.meta.len(), 32);
        assert_eq!(snapshot.meta.keys().filter(|name| name.len() == 32).count(), 31);
        assert_eq!(release.targets.len(), LONGEST);
        let targets = forms::targets(&release.targets).unwrap().says.targets;
        assert!(targets.keys().eq(&release.paths) && targets.len() > 180);
    }

    #[test]
    fn other_members_are_in_every_image() {
        let size = Size {
            other_members: true,
            ..LARGE
        };
        let release = Release::new(3, 1, &size);
        let count = |word: &[u8]| {
            release
                .targets
                .windows(word.len())
                .filter(|window| *window == word)
                .count()
        };
        let targets = forms::targets(&release.targets).unwrap().says.targets;
        assert!(targets.keys().eq(&release.paths) && targets.len() > 80);
        assert_eq!(count(br#""custom":{"#), targets.len());
        assert_eq!(count(br#""sha512":""#), targets.len());
    }

    #[test]
    fn finds_ask_for_different_paths() {
        let paths = Release::new(0, 1, &LARGE).finds(40).into_iter().map(|call| match call {
            Call::Find(_, path) => path,
            call => panic!("{call:?}"),
        });
        assert_eq!(paths.collect::<BTreeSet<_>>().len(), 40);
    }
}
