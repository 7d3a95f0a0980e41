//! The calls of `side`'s groups, played by a baseline and by `paper` side by side: generated, damaged and exhaustive
//! inputs, the limits of the forms, and whole histories. Every answer has to be the same, and the versions held after it.
//! The tests of `ordinary` and of `onepass` are this module.

use std::collections::BTreeMap;

use common::{Forms, Found, State, date, number_of, sha256};
use paper::script::Script;
use side::calls::{ANSWERS, Call, kind_of};
use side::compare::Group;
use side::groups;

/// Any seed will do.
const SEED: u64 = 16;

/// Of each group at most so many inputs.
const MOST: usize = 40_000;

/// The calls that a baseline has.
const PLAYED: &[&str] = &[
    "text",
    "date",
    "install",
    "cycle",
    "root",
    "timestamp",
    "snapshot",
    "targets",
    "find",
    "sha256",
];

/// Plays calls by a baseline, from the blank state on.
struct Player<F> {
    state: State<F>,
}

impl<F: Forms> Player<F> {
    /// The line that docs/REPLAY.md has for the answer; `None` for a call that a baseline has not.
    fn answer(&mut self, call: &Call) -> Option<String> {
        let answer = match call {
            Call::Text(text) => format!("text {}", text_number::<F>(text)),
            Call::Date(date) => match date::seconds(date) {
                Some(seconds) => format!("date {seconds}"),
                None => "date bad".to_string(),
            },
            Call::Install { file, row, time } => {
                let result = State::install(file, row, *time);
                let number = number_of(&result);
                self.state = result.unwrap_or_default();
                self.step("install", number)
            }
            Call::Cycle(time) => {
                let result = self.state.new_cycle(*time);
                self.step("cycle", number_of(&result))
            }
            Call::Root {
                file,
                held_row,
                own_row,
            } => {
                let result = self.state.root(file, held_row, own_row);
                self.step("root", number_of(&result))
            }
            Call::Timestamp { file, row } => {
                let result = self.state.timestamp(file, row);
                self.step("timestamp", number_of(&result))
            }
            Call::Snapshot { file, row } => {
                let result = self.state.snapshot(file, row);
                self.step("snapshot", number_of(&result))
            }
            Call::Targets { file, row } => {
                let result = self.state.targets(file, row);
                self.step("targets", number_of(&result))
            }
            Call::Find { file, path } => {
                let Found { image, compared } = self.state.find(file, path);
                let (length, sha256) = image.map_or((0, [0; 32]), |target| (target.length, target.sha256));
                let sha256 = paper::hex::written(&sha256);
                format!("find {} {length} {sha256} {compared}", number_of(&image))
            }
            Call::Sha256(bytes) => format!("sha256 {}", paper::hex::written(&sha256::digest(bytes))),
            Call::Look(_) | Call::Entry { .. } | Call::Key(_) | Call::Image { .. } | Call::State => return None,
        };
        Some(answer)
    }

    fn step(&self, name: &str, number: u8) -> String {
        let (versions, time) = self.state.versions();
        let mut answer = format!("{name} {number}");
        for (role, version) in ["root", "timestamp", "snapshot", "targets"].iter().zip(versions) {
            let version = version.map_or("-".to_string(), |version| version.to_string());
            answer += &format!(" {role}={version}");
        }
        answer + &format!(" time={time}")
    }
}

/// What REPLAY.md's `text` answers: the length of a file is asked first.
fn text_number<F: Forms>(text: &[u8]) -> u8 {
    match (text.len() > 32_768, F::is_canonical(text)) {
        (true, _) => 1,
        (_, true) => 0,
        (_, false) => 2,
    }
}

/// Plays a group on both sides and counts the answers by their kind.
fn compare<F: Forms>(group: &Group, kinds: &mut BTreeMap<String, usize>) {
    let mut player = Player::<F> {
        state: State::default(),
    };
    let mut script = Script::default();
    for case in (group.cases)(SEED).take(MOST) {
        let Some(call) = case.call() else { continue };
        if let Some(answer) = player.answer(call) {
            assert_eq!(answer, script.call(call), "{}: {}", group.name, case.line());
            *kinds.entry(kind_of(&answer).to_string()).or_default() += 1;
        }
    }
}

/// Plays all groups.
pub fn every_answer_is_papers<F: Forms>() {
    let mut kinds = BTreeMap::new();
    for group in groups::all() {
        compare::<F>(&group, &mut kinds);
    }
    assert!(kinds.values().sum::<usize>() > 300_000, "{kinds:?}");
    assert!(kinds["sha256"] > 1_500, "{kinds:?}");
    // Every answer that 01 lists for a call has occurred, so none of the conditions was left untried.
    for (call, numbers) in ANSWERS.iter().filter(|(call, _)| PLAYED.contains(call)) {
        for number in *numbers {
            let kind = format!("{call} {number}");
            assert!(kinds.contains_key(&kind), "{kind} never occurred");
        }
    }
}
