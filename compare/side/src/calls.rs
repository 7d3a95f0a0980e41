//! The calls of a script: how each is written for replay, what paper answers to it, and what it may answer at all.

use paper::json;
pub use paper::script::Call;
use paper::script::Script;

/// The answers that document 01 and the requests list for each call, in the order in which they are tried. Every one of them can occur.
pub const ANSWERS: &[(&str, &[u8])] = &[
    ("text", &[0, 1, 2]),
    ("look", &[0, 1, 2, 3]),
    ("entry", &[0, 1, 2, 3, 15]),
    ("key", &[0, 6, 15]),
    ("install", &[0, 1, 2, 3, 16, 4, 5, 10]),
    ("cycle", &[0, 17]),
    ("root", &[0, 1, 2, 3, 16, 4, 5, 6, 9, 10, 11]),
    ("timestamp", &[0, 1, 2, 3, 4, 5, 6, 7, 9, 11, 12, 13, 14]),
    ("snapshot", &[0, 1, 2, 3, 4, 5, 6, 7, 8, 9, 11, 13, 14]),
    ("targets", &[0, 1, 2, 3, 4, 5, 6, 7, 8, 9, 11, 14]),
    ("find", &[0, 1, 2, 3, 4, 6, 7, 8, 15]),
    ("image", &[0, 5, 8]),
];

/// A line of a script.
#[derive(Clone, Debug, PartialEq, Eq)]
pub enum Line {
    /// A call, to be written in the plainest way.
    Call(Call),
    /// The line as it stands, which may be no call at all.
    Raw(Vec<u8>),
}

impl From<Call> for Line {
    fn from(call: Call) -> Line {
        Line::Call(call)
    }
}

impl Line {
    /// Appends the line, without its end, to a script.
    pub fn write(&self, script: &mut Vec<u8>) {
        match self {
            Line::Call(call) => write_call(call, script),
            Line::Raw(line) => script.extend_from_slice(line),
        }
    }

    /// The bytes that matter in a form for people, and why paper refuses a text if it does.
    pub fn explained(&self) -> String {
        match self {
            Line::Call(call) => explained(call),
            Line::Raw(line) => readable(line),
        }
    }
}

fn write_call(call: &Call, script: &mut Vec<u8>) {
    let line = &mut Words(script);
    match call {
        Call::Text(bytes) => line.name("text").bytes(bytes),
        Call::Date(bytes) => line.name("date").bytes(bytes),
        Call::Look(file) => line.name("look").bytes(file),
        Call::Entry { file, place } => line.name("entry").bytes(file).number(place),
        Call::Key(keyid) => line.name("key").bytes(keyid),
        Call::Install { file, row, time } => line.name("install").bytes(file).bytes(row).number(time),
        Call::Cycle(time) => line.name("cycle").number(time),
        Call::Root {
            file,
            held_row,
            own_row,
        } => line.name("root").bytes(file).bytes(held_row).bytes(own_row),
        Call::Timestamp { file, row } => line.name("timestamp").bytes(file).bytes(row),
        Call::Snapshot { file, row } => line.name("snapshot").bytes(file).bytes(row),
        Call::Targets { file, row } => line.name("targets").bytes(file).bytes(row),
        Call::Find { file, path } => line.name("find").bytes(file).bytes(path),
        Call::Image { found, fetched } => line
            .name("image")
            .number(found.0)
            .bytes(&found.1)
            .number(fetched.0)
            .bytes(&fetched.1),
        Call::Sha256(bytes) => line.name("sha256").bytes(bytes),
        Call::State => line.name("state"),
    };
}

/// Writes a line word by word.
struct Words<'a>(&'a mut Vec<u8>);

impl Words<'_> {
    fn name(&mut self, name: &str) -> &mut Self {
        self.0.extend_from_slice(name.as_bytes());
        self
    }

    /// "lower-case hex (an even number of digits); or `-` for no bytes"
    fn bytes(&mut self, bytes: &[u8]) -> &mut Self {
        const DIGITS: &[u8; 16] = b"0123456789abcdef";
        self.0.push(b' ');
        if bytes.is_empty() {
            self.0.push(b'-');
        }
        for byte in bytes {
            self.0.push(DIGITS[usize::from(byte >> 4)]);
            self.0.push(DIGITS[usize::from(byte & 15)]);
        }
        self
    }

    fn number(&mut self, number: impl ToString) -> &mut Self {
        self.name(" ").name(&number.to_string())
    }
}

fn explained(call: &Call) -> String {
    match call {
        Call::Text(bytes) => match json::parse(bytes) {
            Ok(_) => readable(bytes),
            Err(fault) => format!("{} ({fault:?})", readable(bytes)),
        },
        Call::Date(bytes) | Call::Key(bytes) | Call::Sha256(bytes) => readable(bytes),
        Call::Look(file)
        | Call::Entry { file, .. }
        | Call::Install { file, .. }
        | Call::Root { file, .. }
        | Call::Timestamp { file, .. }
        | Call::Snapshot { file, .. }
        | Call::Targets { file, .. } => readable(file),
        Call::Find { file, path } => format!("{} in {}", readable(path), readable(file)),
        Call::Cycle(time) => time.to_string(),
        Call::Image { found, fetched } => format!("{} and {} bytes", found.0, fetched.0),
        Call::State => "state".to_string(),
    }
}

/// The bytes as text, cut off if they are many.
fn readable(bytes: &[u8]) -> String {
    const MOST: usize = 200;
    match bytes.get(..MOST) {
        Some(start) => format!("{} ... ({} bytes)", start.escape_ascii(), bytes.len()),
        None => bytes.escape_ascii().to_string(),
    }
}

/// Plays lines by paper's rules, in the order of the script.
#[derive(Default)]
pub struct Player {
    /// Paper's own player.
    pub script: Script,
}

impl Player {
    /// The line that paper answers with; of several the last, which is the one that is compared. `None` for a line that
    /// is passed over.
    pub fn answer(&mut self, line: &Line) -> Option<String> {
        let answer = match line {
            Line::Call(call) => self.script.call(call),
            Line::Raw(line) => self.script.line(line)?,
        };
        answer.lines().last().map(str::to_string)
    }
}

/// The kind of an answer, for counting: the call and its number, or that a date has a meaning, or that it is a digest.
pub fn kind_of(answer: &str) -> &str {
    let mut words = answer.split(' ');
    match (words.next(), words.next()) {
        (Some("date"), Some(seconds)) if seconds != "bad" => "date SECONDS",
        (Some("sha256"), _) => "sha256",
        (Some("state"), _) => "state",
        (Some("error"), _) => "error",
        (Some(call), Some(number)) => &answer[..call.len() + 1 + number.len()],
        _ => answer,
    }
}

/// Whether the answer is one that document 01 lists for its call, or of a call for which it lists none.
pub fn is_listed(kind: &str) -> bool {
    let (call, number) = kind.split_once(' ').unwrap_or((kind, ""));
    match ANSWERS.iter().find(|(name, _)| *name == call) {
        Some((_, numbers)) => number.parse().is_ok_and(|number| numbers.contains(&number)),
        None => true,
    }
}

#[cfg(test)]
mod tests {
    use super::{Call, Line, is_listed, kind_of};

    fn line(call: Call) -> String {
        let mut script = Vec::new();
        Line::Call(call).write(&mut script);
        String::from_utf8(script).unwrap()
    }

    #[test]
    fn lines_of_a_script() {
        assert_eq!(line(Call::Text(b"[-0]".to_vec())), "text 5b2d305d");
        assert_eq!(line(Call::Text(Vec::new())), "text -");
        assert_eq!(line(Call::Date(vec![0x00, 0xff])), "date 00ff");
        assert_eq!(line(Call::Cycle(-5)), "cycle -5");
        assert_eq!(line(Call::State), "state");
    }

    #[test]
    fn every_line_is_read_back() {
        let (file, row, digest) = (vec![0xab, 0], vec![1], vec![9; 32]);
        let (held_row, own_row) = (Vec::new(), vec![0, 1]);
        for call in [
            Call::Text(file.clone()),
            Call::Date(file.clone()),
            Call::Look(file.clone()),
            Call::Entry {
                file: file.clone(),
                place: u64::MAX,
            },
            Call::Key(b"a b".to_vec()),
            Call::Install {
                file: file.clone(),
                row: row.clone(),
                time: i64::MIN,
            },
            Call::Cycle(i64::MAX),
            Call::Root {
                file: file.clone(),
                held_row,
                own_row,
            },
            Call::Timestamp {
                file: file.clone(),
                row: row.clone(),
            },
            Call::Snapshot {
                file: file.clone(),
                row: row.clone(),
            },
            Call::Targets {
                file: file.clone(),
                row,
            },
            Call::Find {
                file: file.clone(),
                path: b"-".to_vec(),
            },
            Call::Sha256(file),
            Call::Image {
                found: (0, digest.clone()),
                fetched: (u64::MAX, digest),
            },
            Call::State,
        ] {
            assert_eq!(Call::read(line(call.clone()).as_bytes()), Ok(call));
        }
    }

    #[test]
    fn kinds_of_answers() {
        assert_eq!(kind_of("text 2"), "text 2");
        assert_eq!(kind_of("date -1"), "date SECONDS");
        assert_eq!(kind_of("date bad"), "date bad");
        assert_eq!(kind_of("look 0 26 2 0"), "look 0");
        assert_eq!(kind_of("sha256 e3b0c442"), "sha256");
        assert_eq!(kind_of("state root=- timestamp=-"), "state");
        assert_eq!(kind_of("error 7 unknown call"), "error");
        assert!(is_listed("timestamp 12") && !is_listed("timestamp 10") && !is_listed("text bad"));
        assert!(is_listed("root 16") && !is_listed("timestamp 16") && !is_listed("find 5"));
        assert!(is_listed("cycle 17") && !is_listed("install 17") && !is_listed("cycle 14"));
        assert!(is_listed("date bad") && is_listed("sha256") && is_listed("state") && is_listed("error"));
    }
}
