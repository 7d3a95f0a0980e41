//! How many names find compares: "exactly the smaller ones, and one more where one is left" (A2), and that it still judges the
//! whole list. Every answer is stated. No two names are compared here to state it: the paths stand in their order by the way
//! they were made, and the number follows from where among them the listed ones are.

use super::Recorder;
use super::finds::{found, not_listed, refused};
use super::forms::{self, Kind};
use crate::calls::Call;
use crate::compare::{Cases, Group};
use crate::random::Random;
use crate::shelf::files::{self, Header, LONGEST, Listed, Root, Targets};
use crate::shelf::sha256::{Digest, digest};
use crate::shelf::tree::{Tree, number, object, text};

const NOW: i64 = 1_000_000_000;
const LATER: i64 = 2_000_000_000;

/// "0 to 256 names of 1 to 128 bytes"
const MOST_NAMES: usize = 256;
const LONGEST_NAME: usize = 128;

const CALLS: &[&str] = &["install", "cycle", "timestamp", "snapshot", "targets", "find"];

/// The groups.
pub fn groups() -> Vec<Group> {
    vec![
        Group {
            name: "search, every place",
            calls: CALLS,
            cases: |_| every_place(),
            least: 8_000,
            shares: &[("find 0", 2), ("find 15", 50), ("find 2", 1), ("find 3", 1)],
            complete: &["find"],
            renewed: false,
        },
        Group {
            name: "search, generated",
            calls: CALLS,
            cases: generated,
            least: 5_000,
            shares: &[("find 0", 20), ("find 15", 20)],
            complete: &[],
            renewed: true,
        },
    ]
}

/// A path that is asked for.
#[derive(Clone, Debug, PartialEq, Eq)]
struct Asked {
    path: Vec<u8>,
    is_listed: bool,
}

impl Asked {
    fn new(path: impl Into<Vec<u8>>, is_listed: bool) -> Asked {
        Asked {
            path: path.into(),
            is_listed,
        }
    }

    fn call(&self, file: &[u8]) -> Call {
        Call::Find {
            file: file.to_vec(),
            path: self.path.clone(),
        }
    }
}

/// Holds all that a targets file of version 1 needs; any such file may then be offered.
fn begin(script: &mut Recorder) {
    script.stated(
        forms::install(&files::file(Root::new(1, LATER).signed(), &[1])),
        "install 0",
    );
    script.stated(Call::Cycle(NOW), "cycle 0");
    let timestamp = forms::timestamp(1, Listed::version(1));
    script.stated(forms::offered(Kind::Timestamp, &timestamp), "timestamp 0");
    let snapshot = forms::snapshot(1, Listed::version(1));
    script.stated(forms::offered(Kind::Snapshot, &snapshot), "snapshot 0");
}

/// A targets file with these names. The first image has 1 byte, the second 2, and so on.
fn targets_of<'a>(names: impl IntoIterator<Item = &'a [u8]>) -> Tree {
    let images = names.into_iter().zip(1..).map(|(name, length)| {
        let name = String::from_utf8(name.to_vec()).expect("a name is UTF-8");
        (name, (length, image_digest(length)))
    });
    let targets = Targets {
        header: Header::new(1, LATER),
        targets: images.collect(),
    };
    files::file(targets.signed(), &[7])
}

fn image_digest(length: u64) -> Digest {
    digest(format!("image of {length} bytes").as_bytes())
}

/// Holds a list of those that are listed, and asks for every path. They come in rising order: the names before a path are the
/// smaller ones.
fn search(script: &mut Recorder, rising: &[Asked]) {
    let listed = rising.iter().filter(|asked| asked.is_listed);
    let file = targets_of(listed.map(|asked| &*asked.path));
    search_in(script, &file, rising);
}

fn search_in(script: &mut Recorder, file: &Tree, rising: &[Asked]) {
    script.stated(forms::offered(Kind::Targets, file), "targets 0");
    let file = file.written();
    let count = rising.iter().filter(|asked| asked.is_listed).count();
    let mut smaller = 0;
    for asked in rising {
        script.stated(asked.call(&file), answer(asked, smaller, count));
        smaller += usize::from(asked.is_listed);
    }
}

/// The answer to a path to which so many of the listed names are smaller.
fn answer(asked: &Asked, smaller: usize, listed: usize) -> String {
    let is_one_left = smaller < listed;
    let compared = smaller + usize::from(is_one_left);
    match asked.is_listed {
        true => {
            let length = smaller as u64 + 1;
            found(length, &image_digest(length), compared)
        }
        false => not_listed(compared),
    }
}

fn every_place() -> Cases {
    let parts: [fn(&mut Recorder); 10] = [
        refusals,
        broken_forms,
        too_many_names,
        misplaced_names,
        other_members,
        no_names,
        single_names,
        neighbouring_names,
        every_other_name,
        most_names,
    ];
    Box::new(parts.into_iter().flat_map(|part| {
        let mut script = Recorder::default();
        begin(&mut script);
        part(&mut script);
        script.take()
    }))
}

/// Paths in rising order, as document 01 has it: "byte by byte after the escapes are undone, a shorter prefix first". Some of
/// them can be no names: they are empty or too long, have bytes below 32 or are not UTF-8.
fn rising_paths() -> Vec<Vec<u8>> {
    // With the escapes on, \" stands behind [ and not before #. With the closing quotation mark on, a stands behind a!.
    let about_the_escapes: [&[u8]; 28] = [
        b"", b"\0", b"\x1f", b" ", b"!", b"!\"", b"\"", b"\"\"", b"\"#", b"\"\\", b"#", b"A", b"[", b"[\\", b"\\",
        b"\\!", b"\\\"", b"\\\\", b"\\a", b"]", b"^", b"a", b"a\0", b"a!", b"a\"", b"a#", b"a[", b"a\\",
    ];
    let about_prefixes: [&[u8]; 7] = [b"a]", b"aa", b"aaa", b"ab", b"b", b"image", b"image.0"];
    // As signed bytes, those above 127 stand before all others. In UTF-16, U+10000 stands before U+E000.
    let above_127: [&[u8]; 14] = [
        b"~",
        b"\x7f",
        b"\x80",
        b"\xc2",
        "\u{80}".as_bytes(),
        "\u{80}!".as_bytes(),
        "\u{e4}".as_bytes(),
        "\u{7ff}".as_bytes(),
        "\u{800}".as_bytes(),
        "\u{20ac}".as_bytes(),
        "\u{e000}".as_bytes(),
        "\u{ffff}".as_bytes(),
        "\u{10000}".as_bytes(),
        b"\xff",
    ];
    let mut paths: Vec<Vec<u8>> = Vec::new();
    paths.extend(about_the_escapes.map(Vec::from));
    paths.extend([b"a\\".repeat(64), b"a\\".repeat(65)]);
    paths.extend(about_prefixes.map(Vec::from));
    paths.extend(about_the_length());
    paths.extend(above_127.map(Vec::from));
    paths
}

/// About the longest name: "A path of length 0 or above 128 is 15."
fn about_the_length() -> [Vec<u8>; 11] {
    let x = |count| vec![b'x'; count];
    let with = |count, more: &[u8]| [&x(count), more].concat();
    [
        x(1),
        x(126),
        x(127),
        with(127, b"!"),
        x(128),
        with(128, b"!"),
        x(129),
        x(300),
        with(128, b"y"),
        with(127, b"y"),
        vec![b'y'; 300],
    ]
}

fn can_be_listed(path: &[u8]) -> bool {
    let has_a_length = (1..=LONGEST_NAME).contains(&path.len());
    has_a_length && path.iter().all(|byte| *byte >= 32) && std::str::from_utf8(path).is_ok()
}

/// The paths above, of which those at some places are listed: the first that can be listed has place 0.
fn with_listed(is_listed: impl Fn(usize) -> bool) -> Vec<Asked> {
    let mut place = 0;
    let mut asked = |path: Vec<u8>| {
        let is_candidate = can_be_listed(&path);
        let is_listed = is_candidate && is_listed(place);
        place += usize::from(is_candidate);
        Asked { path, is_listed }
    };
    rising_paths().into_iter().map(&mut asked).collect()
}

fn candidates() -> usize {
    rising_paths().iter().filter(|path| can_be_listed(path)).count()
}

fn no_names(script: &mut Recorder) {
    search(script, &with_listed(|_| false));
}

fn single_names(script: &mut Recorder) {
    for one in 0..candidates() {
        search(script, &with_listed(|place| place == one));
    }
}

/// Two and three names next to one another.
fn neighbouring_names(script: &mut Recorder) {
    for count in [2, 3] {
        for first in 0..=candidates() - count {
            search(script, &with_listed(|place| (first..first + count).contains(&place)));
        }
    }
}

fn every_other_name(script: &mut Recorder) {
    search(script, &with_listed(|place| place % 2 == 0));
    search(script, &with_listed(|place| place % 2 == 1));
    search(script, &with_listed(|_| true));
}

/// As many names as a list may have: every one, before the first, between any two and after the last.
fn most_names(script: &mut Recorder) {
    let mut rising = vec![Asked::new("", false), Asked::new("0", false)];
    for number in 0..MOST_NAMES {
        rising.push(Asked::new(format!("{number:03}"), true));
        rising.push(Asked::new(format!("{number:03}\""), false));
    }
    rising.push(Asked::new(vec![b'3'; LONGEST_NAME + 1], false));
    search(script, &rising);
}

/// Paths for a list of `b`, `d` and `f`: before, at, between and after them, and those that are 15 by their length.
fn paths_about_three() -> Vec<Asked> {
    let long = |byte| Asked::new(vec![byte; LONGEST_NAME + 1], false);
    vec![
        Asked::new("", false),
        Asked::new("a", false),
        Asked::new("b", true),
        long(b'b'),
        Asked::new("c", false),
        Asked::new("d", true),
        Asked::new("e", false),
        Asked::new("f", true),
        Asked::new("g", false),
        long(b'g'),
    ]
}

/// A list of `b`, `d` and `f`.
fn three_images() -> Tree {
    targets_of([&b"b"[..], b"d", b"f"])
}

/// Asks for all paths about the three names in a file that is refused.
fn refused_whole(script: &mut Recorder, file: &[u8], number: u8) {
    for asked in paths_about_three() {
        script.stated(asked.call(file), refused(number));
    }
}

/// With each refusal of 1 to 8 that find has, nothing was compared.
fn refusals(script: &mut Recorder) {
    let sound = three_images();
    let bytes = sound.written();
    let held = forms::offered(Kind::Targets, &sound);
    // Not held yet.
    refused_whole(script, &bytes, 6);
    search(script, &paths_about_three());
    refused_whole(script, &files::padded(&sound, LONGEST + 1, true), 1);
    refused_whole(script, b"", 2);
    refused_whole(script, &[&bytes[..], b" "].concat(), 2);
    refused_whole(script, &bytes[..bytes.len() - 1], 2);
    for (names, value, number) in [
        (["signed", "_type"], text("snapshot"), 3),
        (["signed", "version"], number(0), 3),
        (["signed", "spec_version"], text("2"), 4),
        (["signed", "version"], number(2), 8),
    ] {
        let mut other = sound.clone();
        *other.member(&names) = value;
        refused_whole(script, &other.written(), number);
    }
    refused_whole(script, &files::padded(&sound, LONGEST, true), 8);
    script.stated(Call::Cycle(LATER - 1), "cycle 0");
    search(script, &paths_about_three());
    // All records that are leaned on expire then, and the clock does not go back (A8).
    script.stated(Call::Cycle(LATER), "cycle 0");
    refused_whole(script, &bytes, 7);
    script.stated(Call::Cycle(LATER - 1), "cycle 17");
    refused_whole(script, &bytes, 7);
    begin(script);
    search(script, &paths_about_three());
    // A newer timestamp: the snapshot, and so the targets file, is not current.
    let newer = forms::timestamp(2, Listed::version(2));
    script.stated(forms::offered(Kind::Timestamp, &newer), "timestamp 0");
    refused_whole(script, &bytes, 6);
    script.stated(held, "targets 6");
}

/// Images that have not their form, and names that are too short or too long: they are refused wherever the search ends.
fn broken_forms(script: &mut Recorder) {
    search(script, &paths_about_three());
    for place in 0..3 {
        for broken in broken_images() {
            let mut file = three_images();
            images(&mut file)[place].1 = broken;
            refused_whole(script, &file.written(), 3);
        }
        for name in [String::new(), "x".repeat(LONGEST_NAME + 1)] {
            let mut file = three_images();
            let image = images(&mut file).remove(place).1;
            file.member(&["signed", "targets"]).insert(name, image);
            refused_whole(script, &file.written(), 3);
        }
    }
}

/// One name more than a list may have; all but three stand behind most of the paths.
fn too_many_names(script: &mut Recorder) {
    search(script, &paths_about_three());
    let mut file = three_images();
    let image = images(&mut file)[0].1.clone();
    let more = (0..=MOST_NAMES - 3).map(|number| (format!("g{number:03}"), image.clone()));
    images(&mut file).extend(more);
    refused_whole(script, &file.written(), 3);
}

/// Images out of order or doubled: a text that is not canonical, wherever the search ends.
fn misplaced_names(script: &mut Recorder) {
    search(script, &paths_about_three());
    for order in [[0, 2, 1], [1, 0, 2], [1, 2, 0], [2, 0, 1], [2, 1, 0]] {
        let mut file = three_images();
        let sound = images(&mut file).clone();
        *images(&mut file) = order.map(|place: usize| sound[place].clone()).to_vec();
        refused_whole(script, &file.written(), 2);
    }
    for place in 0..3 {
        let mut file = three_images();
        let doubled = images(&mut file)[place].clone();
        images(&mut file).insert(place, doubled);
        refused_whole(script, &file.written(), 2);
    }
}

/// Unknown members: only the names of the list itself count, and not those inside of an image or beside the list.
fn other_members(script: &mut Recorder) {
    let list = object([("a", number(1)), ("c", object([("d", number(2))]))]);
    for edited in 0..8 {
        let mut file = three_images();
        for (place, (_, image)) in images(&mut file).iter_mut().enumerate() {
            if edited & 1 << place != 0 {
                image.insert("b", list.clone());
                image.insert("~", Tree::Array(vec![list.clone()]));
                image.member(&["hashes"]).insert("md5", list.clone());
            }
        }
        search_in(script, &file, &paths_about_three());
        for name in ["target", "targets!"] {
            file.member(&["signed"]).insert(name, list.clone());
        }
        search_in(script, &file, &paths_about_three());
    }
}

fn images(file: &mut Tree) -> &mut Vec<(String, Tree)> {
    file.member(&["signed", "targets"]).members()
}

/// Images that have not their form.
fn broken_images() -> Vec<Tree> {
    let sound = images(&mut three_images())[0].1.clone();
    let without = |name: &str| {
        let mut image = sound.clone();
        image.members().retain(|member| member.0 != name);
        image
    };
    let with = |names: &[&str], value: Tree| {
        let mut image = sound.clone();
        *image.member(names) = value;
        image
    };
    vec![
        without("length"),
        without("hashes"),
        with(&["length"], number(1 << 32)),
        with(&["length"], text("1")),
        with(&["hashes", "sha256"], text("A".repeat(64))),
        with(&["hashes", "sha256"], text("0".repeat(63))),
        Tree::Array(Vec::new()),
    ]
}

/// A path of the tree of all short ones.
struct Node {
    path: String,
    /// The place behind the last path that begins with this one.
    end: usize,
}

/// Every path of up to three of these characters, each before the longer ones that begin with it: that is the rising order,
/// for the characters stand in that of their bytes, and none of them begins with another.
fn all_short_paths() -> Vec<Node> {
    let mut nodes = Vec::new();
    add_paths(&mut nodes, String::new(), 3);
    nodes
}

fn add_paths(nodes: &mut Vec<Node>, path: String, more: usize) {
    const RISING: [char; 14] = [
        ' ',
        '!',
        '"',
        '#',
        '[',
        '\\',
        ']',
        'a',
        '\u{7f}',
        '\u{80}',
        '\u{7ff}',
        '\u{800}',
        '\u{ffff}',
        '\u{10000}',
    ];
    let place = nodes.len();
    nodes.push(Node {
        path: path.clone(),
        end: 0,
    });
    if more > 0 {
        for next in RISING {
            add_paths(nodes, format!("{path}{next}"), more - 1);
        }
    }
    nodes[place].end = nodes.len();
}

/// Any lists of short paths, and paths about them.
fn generated(seed: u64) -> Cases {
    const LISTS: usize = 150;
    const PATHS: usize = 40;
    let nodes = all_short_paths();
    let mut random = Random::new(seed, "search");
    let mut script = Recorder::default();
    begin(&mut script);
    Box::new((0..LISTS).flat_map(move |_| {
        let listed = any_list(&nodes, &mut random);
        let file = targets_of(listed.iter().map(|place| nodes[*place].path.as_bytes()));
        script.stated(forms::offered(Kind::Targets, &file), "targets 0");
        let file = file.written();
        for _ in 0..PATHS {
            let (asked, end) = any_path(&nodes, &listed, &mut random);
            let smaller = listed.iter().filter(|place| **place < end).count();
            script.stated(asked.call(&file), answer(&asked, smaller, listed.len()));
        }
        script.take()
    }))
}

/// The places of the listed names, rising. The first path is the empty one, which is no name.
fn any_list(nodes: &[Node], random: &mut Random) -> Vec<usize> {
    let most = random.pick(&[0, 1, 2, 3, 4, 8, 30, 100, MOST_NAMES]);
    let mut places: Vec<usize> = (0..most).map(|_| random.between(1, nodes.len() - 1)).collect();
    places.sort();
    places.dedup();
    places
}

/// A path, and the first place that does not come before it.
fn any_path(nodes: &[Node], listed: &[usize], random: &mut Random) -> (Asked, usize) {
    let place = match listed {
        [_, ..] if random.one_in(2) => listed[random.below(listed.len())],
        // The empty path.
        _ if random.one_in(20) => 0,
        _ => random.below(nodes.len()),
    };
    let node = &nodes[place];
    let count = random.pick(&[1, 2, 100, 127, 128, 129, 300]);
    let followed_by = |byte: u8| Asked::new([node.path.as_bytes(), &vec![byte; count]].concat(), false);
    match random.below(6) {
        // These bytes stand before, and behind, all that the tree has.
        0 => (followed_by(0), place + 1),
        1 => (followed_by(0xff), node.end),
        _ => (Asked::new(&*node.path, listed.contains(&place)), place),
    }
}

#[cfg(test)]
mod tests {
    use super::{all_short_paths, candidates, rising_paths};

    #[test]
    fn the_paths_rise() {
        assert!(rising_paths().is_sorted_by(|one, other| one < other));
        let nodes = all_short_paths();
        assert!(nodes.is_sorted_by(|one, other| one.path < other.path));
    }

    #[test]
    fn behind_a_node_are_those_that_begin_with_it() {
        let nodes = all_short_paths();
        assert_eq!(nodes.len(), 1 + 14 + 14 * 14 + 14 * 14 * 14);
        for (place, node) in nodes.iter().enumerate() {
            assert!(
                nodes[place..node.end]
                    .iter()
                    .all(|other| other.path.starts_with(&node.path))
            );
            assert!(
                !nodes
                    .get(node.end)
                    .is_some_and(|other| other.path.starts_with(&node.path))
            );
        }
    }

    #[test]
    fn both_names_and_other_paths_are_tried() {
        assert!(
            (40..rising_paths().len() - 8).contains(&candidates()),
            "{}",
            candidates()
        );
    }
}
