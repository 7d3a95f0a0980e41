//! The script of calls that docs/REPLAY.md fixes: how a line is read, and what is written for it.

use std::collections::VecDeque;
use std::fs;
use std::path::Path;

use crate::forms::Header;
use crate::refusal::number_of;
use crate::state::{self, Found, State};
use crate::{date, envelope, file, hex, sha256};

/// "A file argument may be up to 1 MiB"
const LONGEST_ARGUMENT: u64 = 1 << 20;

/// One call with its arguments.
#[derive(Clone, Debug, PartialEq, Eq)]
pub enum Call {
    /// `text BYTES`
    Text(Vec<u8>),
    /// `date BYTES`
    Date(Vec<u8>),
    /// `look FILE`
    Look(Vec<u8>),
    /// `entry FILE PLACE`
    Entry {
        /// The file looked into.
        file: Vec<u8>,
        /// Counted from 0.
        place: u64,
    },
    /// `key KEYID`
    Key(Vec<u8>),
    /// `install FILE VERDICTS TIME`
    Install {
        /// The first root.
        file: Vec<u8>,
        /// Under its own keys.
        row: Vec<u8>,
        /// The start time.
        time: i64,
    },
    /// `cycle TIME`
    Cycle(i64),
    /// `root FILE VERDICTS VERDICTS`
    Root {
        /// The next root.
        file: Vec<u8>,
        /// Under the held root's keys.
        held_row: Vec<u8>,
        /// Under its own keys.
        own_row: Vec<u8>,
    },
    /// `timestamp FILE VERDICTS`
    Timestamp {
        /// The offered file.
        file: Vec<u8>,
        /// Under the held root's keys.
        row: Vec<u8>,
    },
    /// `snapshot FILE VERDICTS`
    Snapshot {
        /// The offered file.
        file: Vec<u8>,
        /// Under the held root's keys.
        row: Vec<u8>,
    },
    /// `targets FILE VERDICTS`
    Targets {
        /// The offered file.
        file: Vec<u8>,
        /// Under the held root's keys.
        row: Vec<u8>,
    },
    /// `find FILE PATH`
    Find {
        /// The targets file.
        file: Vec<u8>,
        /// The path asked for.
        path: Vec<u8>,
    },
    /// `image LENGTH DIGEST LENGTH DIGEST`
    Image {
        /// What was found.
        found: (u64, Vec<u8>),
        /// What was fetched.
        fetched: (u64, Vec<u8>),
    },
    /// `sha256 BYTES`
    Sha256(Vec<u8>),
    /// `state`
    State,
}

impl Call {
    /// The call that a line writes, or a short reason why it writes none.
    pub fn read(line: &[u8]) -> Result<Call, &'static str> {
        let mut words = line.split(|byte| *byte == b' ');
        let name = words.next().unwrap_or_default();
        let mut words = Words(words.collect());
        let call = match name {
            b"text" => Call::Text(words.bytes()?),
            b"date" => Call::Date(words.bytes()?),
            b"look" => Call::Look(words.bytes()?),
            b"entry" => Call::Entry {
                file: words.bytes()?,
                place: words.number()?,
            },
            b"key" => Call::Key(words.bytes()?),
            b"install" => Call::Install {
                file: words.bytes()?,
                row: words.bytes()?,
                time: words.time()?,
            },
            b"cycle" => Call::Cycle(words.time()?),
            b"root" => Call::Root {
                file: words.bytes()?,
                held_row: words.bytes()?,
                own_row: words.bytes()?,
            },
            b"timestamp" => Call::Timestamp {
                file: words.bytes()?,
                row: words.bytes()?,
            },
            b"snapshot" => Call::Snapshot {
                file: words.bytes()?,
                row: words.bytes()?,
            },
            b"targets" => Call::Targets {
                file: words.bytes()?,
                row: words.bytes()?,
            },
            b"find" => Call::Find {
                file: words.bytes()?,
                path: words.bytes()?,
            },
            b"image" => Call::Image {
                found: (words.number()?, words.bytes()?),
                fetched: (words.number()?, words.bytes()?),
            },
            b"sha256" => Call::Sha256(words.bytes()?),
            b"state" => Call::State,
            _ => return Err("unknown call"),
        };
        words.end()?;
        Ok(call)
    }
}

/// The words of a line that have not been read yet.
struct Words<'a>(VecDeque<&'a [u8]>);

impl<'a> Words<'a> {
    fn next(&mut self) -> Result<&'a [u8], &'static str> {
        self.0.pop_front().ok_or("too few words")
    }

    fn end(self) -> Result<(), &'static str> {
        if self.0.is_empty() {
            Ok(())
        } else {
            Err("too many words")
        }
    }

    /// "A byte argument is lower-case hex [..]; or `-` for no bytes; or `'` and then the bytes themselves [..]; or `@`
    /// and a file name".
    fn bytes(&mut self) -> Result<Vec<u8>, &'static str> {
        match self.next()? {
            b"" => Err("an empty word"),
            b"-" => Ok(Vec::new()),
            [b'\'', bytes @ ..] => Ok(bytes.to_vec()),
            [b'@', name @ ..] => content(name),
            digits => std::str::from_utf8(digits).ok().and_then(hex::bytes).ok_or("bad hex"),
        }
    }

    /// "A number argument is decimal".
    fn number(&mut self) -> Result<u64, &'static str> {
        let digits = self.next()?;
        whole_number(digits)?.parse().map_err(|_| "number out of range")
    }

    /// "a time may have a leading `-`"
    fn time(&mut self) -> Result<i64, &'static str> {
        let word = self.next()?;
        let text = match word {
            [b'-', digits @ ..] => format!("-{}", whole_number(digits)?),
            digits => whole_number(digits)?.to_string(),
        };
        text.parse().map_err(|_| "number out of range")
    }
}

fn whole_number(digits: &[u8]) -> Result<&str, &'static str> {
    let is_number = !digits.is_empty() && digits.iter().all(u8::is_ascii_digit);
    std::str::from_utf8(digits)
        .ok()
        .filter(|_| is_number)
        .ok_or("not a number")
}

/// The whole content of a file in "the folder the program runs in".
fn content(name: &[u8]) -> Result<Vec<u8>, &'static str> {
    let name = std::str::from_utf8(name).map_err(|_| "no such file")?;
    let path = Path::new(name);
    let length = fs::metadata(path).map_err(|_| "no such file")?.len();
    if length > LONGEST_ARGUMENT {
        return Err("file too long");
    }
    fs::read(path).map_err(|_| "no such file")
}

/// Plays a script from the blank state on.
#[derive(Debug, Default)]
pub struct Script {
    line: usize,
    /// The state in force.
    pub state: State,
}

impl Script {
    /// What is written for the next line, without the last line end; `None` for a line that is passed over.
    pub fn line(&mut self, line: &[u8]) -> Option<String> {
        if line.is_empty() || line.starts_with(b"#") {
            self.line += 1;
            return None;
        }
        match Call::read(line) {
            Ok(call) => Some(self.call(&call)),
            Err(reason) => {
                self.line += 1;
                Some(format!("error {} {reason}", self.line))
            }
        }
    }

    /// What is written for the next line, if it is this call.
    pub fn call(&mut self, call: &Call) -> String {
        self.line += 1;
        match call {
            Call::Text(bytes) => format!("text {}", number_of(&file::read(bytes))),
            Call::Date(bytes) => match date::seconds(bytes) {
                Some(seconds) => format!("date {seconds}"),
                None => "date bad".to_string(),
            },
            Call::Look(file) => look(file),
            Call::Entry { file, place } => entry(file, *place),
            Call::Key(keyid) => self.key(keyid),
            Call::Install { file, row, time } => {
                let result = State::install(file, row, *time);
                let number = number_of(&result);
                // "a refused one returns the blank state"
                self.state = result.unwrap_or_default();
                self.step("install", number)
            }
            Call::Cycle(time) => {
                let result = self.state.cycle(*time);
                self.step("cycle", number_of(&result))
            }
            Call::Root {
                file,
                held_row,
                own_row,
            } => {
                let result = self.state.root(file, held_row, own_row);
                self.step("root", number_of(&result))
            }
            Call::Timestamp { file, row } => {
                let result = self.state.timestamp(file, row);
                self.step("timestamp", number_of(&result))
            }
            Call::Snapshot { file, row } => {
                let result = self.state.snapshot(file, row);
                self.step("snapshot", number_of(&result))
            }
            Call::Targets { file, row } => {
                let result = self.state.targets(file, row);
                self.step("targets", number_of(&result))
            }
            Call::Find { file, path } => self.find(file, path),
            Call::Image { found, fetched } => {
                let result = state::image((found.0, &found.1), (fetched.0, &fetched.1));
                format!("image {}", number_of(&result))
            }
            Call::Sha256(bytes) => format!("sha256 {}", hex::written(&sha256::digest(bytes))),
            Call::State => format!("{}state{}", held(&self.state), versions(&self.state)),
        }
    }

    fn step(&self, name: &str, number: u8) -> String {
        format!("{name} {number}{}", versions(&self.state))
    }

    fn key(&self, keyid: &[u8]) -> String {
        let result = self.state.key(keyid);
        let zeros = hex::zeros(hex::OF_32_BYTES);
        format!("key {} {}", number_of(&result), result.unwrap_or(&zeros))
    }

    fn find(&self, file: &[u8], path: &[u8]) -> String {
        let Found { image, compared } = self.state.find(file, path);
        match image {
            Ok(target) => format!("find 0 {} {} {compared}", target.length, target.sha256),
            Err(refusal) => {
                let zeros = hex::zeros(hex::OF_32_BYTES);
                format!("find {} 0 {zeros} {compared}", refusal.number())
            }
        }
    }
}

fn look(file: &[u8]) -> String {
    match envelope::look(file) {
        Ok((start, part, entries)) => format!("look 0 {start} {} {entries}", part.len()),
        Err(refusal) => format!("look {} 0 0 0", refusal.number()),
    }
}

fn entry(file: &[u8], place: u64) -> String {
    let said = |number, keyid: &str, sig: &str| format!("entry {number} {keyid} {sig}");
    match envelope::entry(file, place) {
        Ok(entry) => said(0, &entry.keyid, &entry.sig),
        Err(refusal) => {
            let (keyid, sig) = (hex::zeros(hex::OF_32_BYTES), hex::zeros(hex::OF_64_BYTES));
            said(refusal.number(), &keyid, &sig)
        }
    }
}

/// The versions held, or `-`, and the start time.
fn versions(state: &State) -> String {
    let version = |held: Option<u64>| held.map_or("-".to_string(), |version| version.to_string());
    format!(
        " root={} timestamp={} snapshot={} targets={} time={}",
        version(state.root.as_ref().map(|held| held.header.version)),
        version(state.timestamp.as_ref().map(|held| held.header.version)),
        version(state.snapshot.as_ref().map(|held| held.header.version)),
        version(state.targets.as_ref().map(|held| held.header.version)),
        state.time,
    )
}

/// For people: a line for each thing held.
fn held(state: &State) -> String {
    let mut lines = String::new();
    let mut add = |what: &str, header: &Header, more: String| {
        lines.push_str(&format!(
            "{what}: version {}, expires {}, {more}\n",
            header.version, header.expires
        ));
    };
    if let Some(root) = &state.root {
        add("root", &root.header, format!("{} keys", root.keys.len()));
    }
    if let Some(timestamp) = &state.timestamp {
        let version = timestamp.snapshot.version;
        add("timestamp", &timestamp.header, format!("lists snapshot {version}"));
    }
    if let Some(snapshot) = &state.snapshot {
        let names = snapshot.meta.len();
        add("snapshot", &snapshot.header, format!("lists {names} names"));
    }
    if let Some(targets) = &state.targets {
        add("targets", &targets.header, format!("sha256 {}", targets.digest));
    }
    lines
}

#[cfg(test)]
mod tests {
    use super::Script;

    /// What is written for a whole script, line by line.
    fn played(lines: &str) -> Vec<String> {
        let mut script = Script::default();
        lines
            .split('\n')
            .filter_map(|line| script.line(line.as_bytes()))
            .collect()
    }

    #[test]
    fn example_of_the_script_form() {
        let script = "look 7b227369676e617475726573223a5b5d2c227369676e6564223a7b7d7d\n\
                      date '1985-10-21T01:21:00Z\n\
                      text '[-0]\n\
                      cycle 5\n";
        assert_eq!(
            played(script),
            [
                "look 0 26 2 0",
                "date 498705660",
                "text 2",
                "cycle 0 root=- timestamp=- snapshot=- targets=- time=5",
            ]
        );
    }

    /// A8: "refused with the new number 17 and changes nothing; an equal one passes"
    #[test]
    fn a_cycle_with_an_earlier_start_time() {
        let held = "root=- timestamp=- snapshot=- targets=-";
        let script = "cycle 5\ncycle 4\ncycle 5\ncycle -9223372036854775808\nstate";
        assert_eq!(
            played(script),
            [
                format!("cycle 0 {held} time=5"),
                format!("cycle 17 {held} time=5"),
                format!("cycle 0 {held} time=5"),
                format!("cycle 17 {held} time=5"),
                format!("state {held} time=5"),
            ]
        );
    }

    #[test]
    fn lines_that_are_no_call() {
        let script = "# passed over\n\nlook\nlook - -\nsha256\nsha256 - -\nsnapshot - - -\ntargets - - -\nfind - - -\nLook -\nlook 0\nlook 0G\nlook AB\nlook @no/such/file\n\
                      cycle -\ncycle 9223372036854775808\nentry - -1\nimage 18446744073709551616 - 0 -\n look -\nstate \n\
                      cycle -9223372036854775808";
        let answers = played(script);
        assert_eq!(answers.len(), 19);
        for (number, answer) in (3..21).zip(&answers) {
            let start = format!("error {number} ");
            assert!(answer.starts_with(&start) && answer.len() > start.len(), "{answer}");
        }
        let last = "cycle 0 root=- timestamp=- snapshot=- targets=- time=-9223372036854775808";
        assert_eq!(answers.last().map(String::as_str), Some(last));
    }

    #[test]
    fn digests_are_written_in_hex() {
        let abc = "sha256 ba7816bf8f01cfea414140de5dae2223b00361a396177a9cb410ff61f20015ad";
        let empty = "sha256 e3b0c44298fc1c149afbf4c8996fb92427ae41e4649b934ca495991b7852b855";
        assert_eq!(played("sha256 'abc\nsha256 616263\nsha256 -"), [abc, abc, empty]);
    }

    #[test]
    fn what_refused_calls_write() {
        let zeros = "0".repeat(64);
        let blank = "root=- timestamp=- snapshot=- targets=- time=-9223372036854775808";
        let script = "look '{}\nentry '{} 0\nkey 'a\nfind - -\nimage 1 - 1 -\ninstall - - 7\nroot - - -\n\
                      timestamp - -\nsnapshot - -\ntargets - -\nstate";
        assert_eq!(
            played(script),
            [
                "look 3 0 0 0".to_string(),
                format!("entry 3 {zeros} {zeros}{zeros}"),
                format!("key 6 {zeros}"),
                format!("find 2 0 {zeros} 0"),
                "image 5".to_string(),
                format!("install 2 {blank}"),
                format!("root 2 {blank}"),
                format!("timestamp 2 {blank}"),
                format!("snapshot 2 {blank}"),
                format!("targets 2 {blank}"),
                format!("state {blank}"),
            ]
        );
    }
}
