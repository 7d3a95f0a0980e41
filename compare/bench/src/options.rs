//! The words of the command line.

/// How the words are to be used.
pub const USAGE: &str = "\
bench [--markdown] [--only WORDS]
bench --play rattle|ordinary|onepass TIMES [--only WORDS]

  --markdown   prints the tables as markdown
  --only       only the lines whose name contains the words
  --play       plays the lines so many times on one side alone, for a profiler";

/// A side of the comparison.
#[derive(Clone, Copy, Debug, PartialEq, Eq)]
pub enum Side {
    /// The library.
    Rattle,
    /// Plain Rust, by way of a tree.
    Ordinary,
    /// Plain Rust, in one pass.
    OnePass,
}

/// What was asked for.
#[derive(Debug, Default, PartialEq, Eq)]
pub struct Options {
    /// How the words are to be used.
    pub help: bool,
    /// Tables as markdown.
    pub markdown: bool,
    only: Option<String>,
    /// One side alone, so many times.
    pub play: Option<(Side, usize)>,
}

impl Options {
    /// The options that the words mean; `None` if they mean nothing.
    pub fn read(mut words: impl Iterator<Item = String>) -> Option<Options> {
        let mut options = Options::default();
        while let Some(word) = words.next() {
            match word.as_str() {
                "--help" => options.help = true,
                "--markdown" => options.markdown = true,
                "--only" => options.only = Some(words.next()?),
                "--play" => options.play = Some((side(&words.next()?)?, words.next()?.parse().ok()?)),
                _ => return None,
            }
        }
        Some(options)
    }

    /// Whether a line of this name is wanted.
    pub fn picks(&self, name: &str) -> bool {
        self.only.as_ref().is_none_or(|only| name.contains(only))
    }
}

fn side(word: &str) -> Option<Side> {
    match word {
        "rattle" => Some(Side::Rattle),
        "ordinary" => Some(Side::Ordinary),
        "onepass" => Some(Side::OnePass),
        _ => None,
    }
}

#[cfg(test)]
mod tests {
    use super::{Options, Side};

    fn read(line: &str) -> Option<Options> {
        Options::read(line.split_whitespace().map(str::to_string))
    }

    #[test]
    fn lines_are_picked_by_words_of_their_name() {
        let options = read("--only cycle --markdown").unwrap();
        assert!(options.markdown && options.picks("whole cycle: large files") && !options.picks("find"));
        assert!(read("").unwrap().picks("find"));
    }

    #[test]
    fn one_side_alone() {
        assert_eq!(read("--play ordinary 7").unwrap().play, Some((Side::Ordinary, 7)));
        assert_eq!(read("--play onepass 7").unwrap().play, Some((Side::OnePass, 7)));
        for broken in [
            "--play",
            "--play paper 7",
            "--play rattle",
            "--play rattle x",
            "--only",
            "more",
        ] {
            assert_eq!(read(broken), None, "{broken}");
        }
    }
}
