//! The command line.

use std::path::PathBuf;
use std::time::Duration;

/// How to call the program.
pub const USAGE: &str = "\
fuzz: makes random and mutated calls through the C interface and compares the answers with paper's
  --seconds N    go on for so long (default 10)
  --calls N      make exactly so many calls instead
  --seed N       seed of the calls (default 1)
  --driver PATH  have this program, built of driver.c, make the same calls
  --help         print this and end";

/// When to end.
#[derive(Clone, Copy, Debug, PartialEq, Eq)]
pub enum Limit {
    /// After so much time.
    Time(Duration),
    /// After so many calls.
    Calls(usize),
}

/// What was asked for.
#[derive(Clone, Debug, PartialEq, Eq)]
pub struct Options {
    /// When to end.
    pub limit: Limit,
    /// The seed of the calls.
    pub seed: u64,
    /// The driver.
    pub driver: Option<PathBuf>,
    /// Print how to call the program.
    pub help: bool,
}

impl Options {
    /// Reads the words after the program's name.
    pub fn read(mut words: impl Iterator<Item = String>) -> Result<Options, String> {
        let mut options = Options {
            limit: Limit::Time(Duration::from_secs(10)),
            seed: 1,
            driver: None,
            help: false,
        };
        while let Some(word) = words.next() {
            let mut value = || words.next().ok_or_else(|| format!("{word}: a value is missing"));
            match word.as_str() {
                "--seconds" => options.limit = Limit::Time(Duration::from_secs(number(&value()?)?)),
                "--calls" => options.limit = Limit::Calls(number(&value()?)? as usize),
                "--seed" => options.seed = number(&value()?)?,
                "--driver" => options.driver = Some(PathBuf::from(value()?)),
                "--help" => options.help = true,
                _ => return Err(format!("{word}: unknown")),
            }
        }
        Ok(options)
    }
}

fn number(word: &str) -> Result<u64, String> {
    word.parse().map_err(|_| format!("{word}: not a whole number"))
}

#[cfg(test)]
mod tests {
    use super::{Limit, Options};
    use std::path::PathBuf;
    use std::time::Duration;

    fn read(line: &str) -> Result<Options, String> {
        Options::read(line.split_whitespace().map(str::to_string))
    }

    #[test]
    fn every_option() {
        let options = read("--seconds 60 --seed 7 --driver d --help").unwrap();
        assert_eq!(options.limit, Limit::Time(Duration::from_secs(60)));
        assert_eq!((options.seed, options.help), (7, true));
        assert_eq!(options.driver, Some(PathBuf::from("d")));
        assert_eq!(read("--calls 5").unwrap().limit, Limit::Calls(5));
    }

    #[test]
    fn what_is_not_understood_is_refused() {
        for line in ["--second 7", "--seed", "--seed x", "--seconds -1", "7"] {
            assert!(read(line).is_err(), "{line}");
        }
    }
}
