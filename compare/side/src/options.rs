//! The command line.

use std::path::PathBuf;
use std::time::Duration;

/// How to call the program.
pub const USAGE: &str = "\
side: runs replay and paper side by side
  --replay PATH       the program to compare (default: target/bin/replay of the repository)
  --seed N            seed of the generated inputs (default 1)
  --minutes M         go on with fresh seeds until M minutes have passed
  --only WORDS        only the groups whose name contains these words
  --patience SECONDS  how long replay may take over one answer (default 60)
  --first             end a group at its first wrong answer
  --all-calls         run also the groups of calls that are not compared yet
  --whole             print lines of a script that are very long as a whole
  --print             print the script of the groups instead of running them
  --list              print the names of the groups and end
  --help              print this and end";

/// What was asked for.
#[derive(Clone, Debug, PartialEq)]
pub struct Options {
    /// The program to compare.
    pub replay: PathBuf,
    /// The seed of the first round.
    pub seed: u64,
    /// How long to go on with further rounds.
    pub duration: Duration,
    /// Words that the name of a group must contain to be run.
    pub only: String,
    /// How long to wait for one answer.
    pub patience: Duration,
    /// End a group at its first wrong answer.
    pub first: bool,
    /// Run also the groups of calls that are not compared yet.
    pub all_calls: bool,
    /// Print very long lines of a script as a whole.
    pub whole: bool,
    /// Print the script of the groups instead of running them.
    pub print: bool,
    /// Print the names of the groups instead of running them.
    pub list: bool,
    /// Print how to call the program.
    pub help: bool,
}

impl Options {
    /// What holds if nothing else is asked for.
    pub fn new() -> Options {
        Options {
            replay: [env!("CARGO_MANIFEST_DIR"), "..", "..", "target", "bin", "replay"]
                .iter()
                .collect(),
            seed: 1,
            duration: Duration::ZERO,
            only: String::new(),
            patience: Duration::from_secs(60),
            first: false,
            all_calls: false,
            whole: false,
            print: false,
            list: false,
            help: false,
        }
    }

    /// Reads the words after the program's name.
    pub fn read(mut words: impl Iterator<Item = String>) -> Result<Options, String> {
        let mut options = Options::new();
        while let Some(word) = words.next() {
            let mut value = || words.next().ok_or_else(|| format!("{word}: a value is missing"));
            match word.as_str() {
                "--first" => options.first = true,
                "--all-calls" => options.all_calls = true,
                "--whole" => options.whole = true,
                "--print" => options.print = true,
                "--list" => options.list = true,
                "--help" => options.help = true,
                "--replay" => options.replay = PathBuf::from(value()?),
                "--seed" => options.seed = number(&value()?)?,
                "--minutes" => options.duration = seconds(&value()?, 60.0)?,
                "--only" => options.only = value()?,
                "--patience" => options.patience = seconds(&value()?, 1.0)?,
                _ => return Err(format!("{word}: unknown")),
            }
        }
        Ok(options)
    }
}

impl Default for Options {
    fn default() -> Options {
        Options::new()
    }
}

fn number(word: &str) -> Result<u64, String> {
    word.parse().map_err(|_| format!("{word}: not a whole number"))
}

fn seconds(word: &str, unit: f64) -> Result<Duration, String> {
    let wrong = || format!("{word}: not a length of time");
    let count: f64 = word.parse().map_err(|_| wrong())?;
    Duration::try_from_secs_f64(count * unit).map_err(|_| wrong())
}

#[cfg(test)]
mod tests {
    use super::Options;
    use std::path::PathBuf;
    use std::time::Duration;

    fn read(line: &str) -> Result<Options, String> {
        Options::read(line.split_whitespace().map(str::to_string))
    }

    #[test]
    fn every_option() {
        let words = "--replay r --seed 7 --minutes 0.5 --only text --patience 2";
        let switches = "--first --all-calls --whole --print --list --help";
        let options = read(&format!("{words} {switches}")).unwrap();
        assert_eq!(options.replay, PathBuf::from("r"));
        assert_eq!(options.seed, 7);
        assert_eq!(options.duration, Duration::from_secs(30));
        assert_eq!(options.only, "text");
        assert_eq!(options.patience, Duration::from_secs(2));
        assert!(options.first && options.all_calls && options.whole);
        assert!(options.print && options.list && options.help);
    }

    #[test]
    fn what_is_not_understood_is_refused() {
        for line in ["--sed 7", "--seed", "--seed x", "--seed -1", "--minutes -1", "7"] {
            assert!(read(line).is_err(), "{line}");
        }
    }
}
