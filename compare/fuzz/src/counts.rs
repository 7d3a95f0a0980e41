//! How many calls of each kind were made, and how many of each answer. A run that leaves something out shows nothing of it.

use std::collections::BTreeMap;
use std::fmt;

use paper::script::Call;
use side::calls::ANSWERS;

/// The name of a call; that of `text` is the one of the C interface.
pub fn name_of(call: &Call) -> &'static str {
    match call {
        Call::Text(_) => "is_canonical",
        Call::Sha256(_) => "sha256",
        Call::Date(_) => "date",
        Call::Look(_) => "look",
        Call::Entry { .. } => "entry",
        Call::Key(_) => "key",
        Call::Install { .. } => "install",
        Call::Cycle(_) => "cycle",
        Call::Root { .. } => "root",
        Call::Timestamp { .. } => "timestamp",
        Call::Snapshot { .. } => "snapshot",
        Call::Targets { .. } => "targets",
        Call::Find { .. } => "find",
        Call::Image { .. } => "image",
        Call::State => "state",
    }
}

/// Counts by call and answer.
#[derive(Clone, Debug, Default, PartialEq, Eq)]
pub struct Counts {
    counts: BTreeMap<(&'static str, u8), usize>,
}

impl Counts {
    /// Counts an answer.
    pub fn add(&mut self, call: &Call, number: u8) {
        *self.counts.entry((name_of(call), number)).or_default() += 1;
    }

    /// How many calls were made.
    pub fn sum(&self) -> usize {
        self.counts.values().sum()
    }

    /// The answers that never occurred: of those that document 01 lists for each call, of `is_canonical` yes and no, and of
    /// `sha256` the one that it has.
    pub fn missing(&self) -> Vec<String> {
        let others = [("is_canonical", &[0, 1][..]), ("sha256", &[0])];
        let listed = ANSWERS.iter().filter(|(name, _)| *name != "text").copied();
        let expected = listed.chain(others);
        let expected = expected.flat_map(|(name, numbers)| numbers.iter().map(move |number| (name, *number)));
        expected
            .filter(|kind| !self.counts.contains_key(kind))
            .map(|(name, number)| format!("{name} {number}"))
            .collect()
    }
}

impl fmt::Display for Counts {
    /// A line for each call.
    fn fmt(&self, out: &mut fmt::Formatter<'_>) -> fmt::Result {
        let mut names: Vec<&str> = self.counts.keys().map(|(name, _)| *name).collect();
        names.dedup();
        for name in names {
            let answers = self.counts.iter().filter(|((other, _), _)| *other == name);
            let sum: usize = answers.clone().map(|(_, count)| count).sum();
            let answers: Vec<String> = answers
                .map(|((_, number), count)| format!("{number}: {count}"))
                .collect();
            writeln!(out, "  {name}: {sum} ({})", answers.join(", "))?;
        }
        Ok(())
    }
}

#[cfg(test)]
mod tests {
    use super::Counts;
    use paper::script::Call;

    #[test]
    fn what_never_occurred_is_named() {
        let mut counts = Counts::default();
        counts.add(&Call::Cycle(0), 0);
        counts.add(&Call::Text(Vec::new()), 0);
        counts.add(&Call::Text(Vec::new()), 0);
        let missing = counts.missing();
        for kind in [
            "is_canonical 1",
            "install 10",
            "install 16",
            "cycle 17",
            "root 16",
            "sha256 0",
            "timestamp 12",
            "find 15",
            "entry 15",
            "image 8",
        ] {
            assert!(missing.iter().any(|missing| missing == kind), "{kind}");
        }
        assert!(!missing.contains(&"cycle 0".to_string()));
        assert_eq!(counts.to_string(), "  cycle: 1 (0: 1)\n  is_canonical: 2 (0: 2)\n");
        assert_eq!(counts.sum(), 3);
    }
}
