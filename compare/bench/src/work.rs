//! The lines of the tables: what is played before the clock starts, and what is measured.

use side::shelf::files::LONGEST;

use crate::calls::Call;
use crate::inputs::{self, LARGE, MIDDLE, Release, Size};

/// How many shelves a line is measured on: so many that the processor's branch prediction does not learn the files by
/// heart, and without a common divisor with the number of orders of the sides, so that each shelf is played in every order.
const SHELVES: usize = 11;

/// One line of a table.
pub struct Work {
    /// What is measured.
    pub name: String,
    /// Which table it stands in.
    pub table: Table,
    /// The same on each shelf.
    pub shelves: Vec<Play>,
}

/// The tables.
#[derive(Clone, Copy, Debug, PartialEq, Eq)]
pub enum Table {
    /// Times, in microseconds.
    Times,
    /// Times for each byte, as the file doubles.
    Growth,
}

/// What is played on one shelf.
pub struct Play {
    /// Gives the state that the calls are played on; not measured.
    pub before: Vec<Call>,
    /// What is measured, in parts that do not need one another and whose times are added up. A part is short, so that
    /// most of its runs are not interrupted.
    pub parts: Vec<Vec<Call>>,
}

impl Play {
    /// All calls, those before the clock starts too.
    pub fn calls(&self) -> impl Iterator<Item = &Call> {
        self.before.iter().chain(self.parts.iter().flatten())
    }

    /// How many bytes of files or text are measured, all together.
    pub fn bytes(&self) -> usize {
        self.parts.iter().flatten().map(Call::bytes).sum()
    }
}

impl Work {
    fn new(name: &str, play: impl Fn(usize) -> Play) -> Work {
        Work {
            name: name.to_string(),
            table: Table::Times,
            shelves: (0..SHELVES).map(play).collect(),
        }
    }
}

/// The lines of all tables.
pub fn all() -> Vec<Work> {
    [texts(), digests(), forms(), cycles(), growths()]
        .into_iter()
        .flatten()
        .collect()
}

/// Validating text of 32,768 bytes.
fn texts() -> Vec<Work> {
    let validate = |name, text: fn(usize) -> Call| {
        Work::new(name, |shelf| Play {
            before: Vec::new(),
            parts: vec![vec![text(shelf)]],
        })
    };
    vec![
        validate("validate: plain ASCII strings", inputs::plain_strings),
        validate("validate: dense escapes", inputs::dense_escapes),
        validate("validate: multi-byte UTF-8", inputs::multi_byte),
        validate("validate: many small values", inputs::small_values),
        validate("validate: a targets file", |shelf| {
            Release::new(shelf, 1, &LARGE).targets_text()
        }),
    ]
}

/// SHA-256 alone: of a small file, of one at the limit, and of twice as many bytes.
fn digests() -> Vec<Work> {
    let digest = |name, length| {
        Work::new(name, |shelf| Play {
            before: Vec::new(),
            parts: vec![vec![inputs::message(shelf, length)]],
        })
    };
    vec![
        digest("SHA-256 of 1,000 bytes", 1_000),
        digest("SHA-256 of 32,768 bytes", 32_768),
        digest("SHA-256 of 65,536 bytes", 65_536),
    ]
}

/// Reading each form at its largest, through the step that reads it.
fn forms() -> Vec<Work> {
    let padded = Size {
        timestamp: Some(LONGEST),
        ..LARGE
    };
    let others = Size {
        other_members: true,
        ..LARGE
    };
    vec![
        step("root: 16 keys, 4 roles of 16, 16 entries", &LARGE, 1),
        step("timestamp: plain, 2 entries", &MIDDLE, 2),
        step("timestamp: 16 entries, padded", &padded, 2),
        step("snapshot: 32 names, 16 entries", &LARGE, 3),
        step("targets: 16 entries", &LARGE, 4),
        step("targets: images with other members", &others, 4),
        finds("find: one path", &LARGE, 1),
        finds("find: images with other members", &others, 1),
    ]
}

/// Whole updates, and many finds.
fn cycles() -> Vec<Work> {
    let cycle = |name, size| {
        Work::new(name, |shelf| Play {
            before: Release::new(shelf, 1, size).installed(),
            parts: vec![Release::new(shelf, 2, size).update()],
        })
    };
    vec![
        cycle("whole cycle: middle-sized files", &MIDDLE),
        cycle("whole cycle: large files", &LARGE),
        finds("forty finds", &LARGE, 40),
    ]
}

/// Validating, the targets step and find, as the targets file doubles.
fn growths() -> Vec<Work> {
    const DOUBLING: [usize; 6] = [1_024, 2_048, 4_096, 8_192, 16_384, 32_768];
    let sizes = DOUBLING.map(|targets| Size {
        role_keys: 1,
        signers: 1,
        targets,
        ..MIDDLE
    });
    let validate = |size| {
        Work::new("growth: validate", |shelf| Play {
            before: Vec::new(),
            parts: vec![vec![Release::new(shelf, 1, size).targets_text()]],
        })
    };
    let validates = sizes.iter().map(validate);
    let targets = sizes.iter().map(|size| step("growth: targets", size, 4));
    let finds = sizes.iter().map(|size| finds("growth: find", size, 1));
    let growth = |work| Work {
        table: Table::Growth,
        ..work
    };
    validates.chain(targets).chain(finds).map(growth).collect()
}

/// One call of an update, by its place in it, on the state that the calls before it leave.
fn step(name: &str, size: &Size, place: usize) -> Work {
    Work::new(name, |shelf| {
        let mut before = Release::new(shelf, 1, size).installed();
        let mut update = Release::new(shelf, 2, size).update();
        let step = update.remove(place);
        before.extend(update.into_iter().take(place));
        Play {
            before,
            parts: vec![vec![step]],
        }
    })
}

/// So many finds in the targets file that is held, each a part of its own.
fn finds(name: &str, size: &Size, count: usize) -> Work {
    Work::new(name, |shelf| {
        let release = Release::new(shelf, 1, size);
        Play {
            before: release.installed(),
            parts: release.finds(count).into_iter().map(|find| vec![find]).collect(),
        }
    })
}
