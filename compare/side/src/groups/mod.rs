//! The groups of inputs, one module for each family of calls, and what makes their inputs.

mod clock;
pub mod damage;
mod dates;
mod digests;
mod finds;
mod forms;
pub mod histories;
mod images;
mod keyids;
mod keys;
mod limits;
mod lines;
mod looks;
mod mutants;
mod named;
pub mod names;
mod published;
mod rotation;
mod search;
mod signed;
mod text;
mod texts;
mod told;
mod versions;

use crate::calls::{Call, Line, Player};
use crate::compare::{Case, Cases, Group};

/// The calls of replay that are compared: all that it has. A group is run only if all of its calls are in this list, so
/// that the group of a call which replay has still to get can stand ready; such a group is named in the report.
pub const COMPARED: &[&str] = &[
    "text",
    "date",
    "look",
    "entry",
    "key",
    "install",
    "cycle",
    "root",
    "timestamp",
    "snapshot",
    "targets",
    "find",
    "image",
    "sha256",
    "state",
];

/// Every group, in the order in which they are run.
pub fn all() -> Vec<Group> {
    [
        text::groups(),
        dates::groups(),
        lines::groups(),
        looks::groups(),
        keys::groups(),
        images::groups(),
        digests::groups(),
        forms::groups(),
        limits::groups(),
        keyids::groups(),
        search::groups(),
        rotation::groups(),
        versions::groups(),
        clock::groups(),
        named::groups(),
        published::groups(),
        signed::groups(),
        histories::groups(),
    ]
    .into_iter()
    .flatten()
    .collect()
}

/// The calls of a group that are not compared yet.
pub fn missing_calls(group: &Group) -> Vec<&'static str> {
    let is_missing = |call: &&&str| !COMPARED.contains(*call);
    group.calls.iter().filter(is_missing).copied().collect()
}

/// All of these cases.
fn all_of(cases: Vec<Case>) -> Cases {
    Box::new(cases.into_iter())
}

/// Collects the cases of a script and plays them with paper on the way. That steers only what is tried next.
#[derive(Default)]
struct Recorder {
    player: Player,
    cases: Vec<Case>,
}

impl Recorder {
    /// Adds a call on which paper has the only word. Gives its answer.
    fn open(&mut self, call: Call) -> String {
        self.add(call, None)
    }

    /// Adds a call whose answer is known.
    fn stated(&mut self, call: Call, answer: impl Into<String>) -> String {
        self.add(call, Some(answer.into()))
    }

    fn add(&mut self, call: Call, stated: Option<String>) -> String {
        let line = Line::Call(call);
        let answer = self.player.answer(&line).expect("every call is answered");
        let case = match stated {
            Some(stated) => Case::stated(line, stated),
            None => Case::open(line),
        };
        self.cases.push(case.answered(answer.clone()));
        answer
    }

    /// The state that paper holds now.
    fn state(&self) -> &paper::state::State {
        &self.player.script.state
    }

    /// The cases collected so far.
    fn take(&mut self) -> Vec<Case> {
        std::mem::take(&mut self.cases)
    }
}

#[cfg(test)]
mod tests {
    use super::{all, missing_calls};
    use crate::random::Random;
    use std::collections::BTreeSet;

    #[test]
    fn names_are_different() {
        let groups = all();
        let names: BTreeSet<_> = groups.iter().map(|group| group.name).collect();
        assert_eq!(names.len(), groups.len());
    }

    #[test]
    fn a_seed_gives_the_same_inputs_again() {
        for group in all() {
            let first_inputs = |seed| {
                let cases = (group.cases)(seed).take(50);
                cases.map(|case| format!("{case:?}")).collect::<Vec<_>>()
            };
            assert_eq!(first_inputs(3), first_inputs(3), "{}", group.name);
            if group.renewed {
                assert_ne!(first_inputs(3), first_inputs(4), "{}", group.name);
            }
        }
    }

    #[test]
    fn groups_say_which_calls_they_make() {
        for group in all() {
            let made: BTreeSet<String> = (group.cases)(1)
                .take(6_000)
                .map(|case| case.line().split(' ').next().unwrap_or_default().to_string())
                .collect();
            let named: BTreeSet<String> = group.calls.iter().map(|call| call.to_string()).collect();
            if !group.name.starts_with("script") {
                assert_eq!(made, named, "{}", group.name);
            }
        }
    }

    #[test]
    fn every_group_is_run() {
        for group in all() {
            assert_eq!(missing_calls(&group), Vec::<&str>::new(), "{}", group.name);
        }
    }

    #[test]
    fn purposes_have_sequences_of_their_own() {
        let draws = |purpose| {
            let mut random = Random::new(1, purpose);
            (0..8).map(|_| random.byte()).collect::<Vec<_>>()
        };
        assert_ne!(draws("one"), draws("two"));
    }
}
