//! Where the calls come from: histories of [`side`], and between their calls mutated ones and questions.

use std::collections::VecDeque;

use paper::script::Call;
use paper::state::State;
use side::groups::damage;
use side::groups::histories;
use side::random::Random;

use crate::mutation::mutated;

/// A call, and whether the state after it is gone on with.
#[derive(Clone, Debug, PartialEq, Eq)]
pub struct Move {
    /// The call.
    pub call: Call,
    /// Whether it is made on a copy of the state that is thrown away.
    pub aside: bool,
}

/// An endless supply of calls, the same for the same seed and the same states of paper.
pub struct Source {
    seed: u64,
    random: Random,
    /// How many histories were begun.
    histories: usize,
    /// The calls of the present history that are still to be made.
    ahead: VecDeque<Call>,
    /// Further calls to be made first.
    waiting: VecDeque<Move>,
    /// Calls of the present history that were made.
    made: Vec<Call>,
}

impl Source {
    /// The calls of a seed.
    pub fn new(seed: u64) -> Source {
        Source {
            seed,
            random: Random::new(seed, "fuzz"),
            histories: 0,
            ahead: VecDeque::new(),
            waiting: VecDeque::new(),
            made: Vec::new(),
        }
    }

    /// The next call; `state` is what paper holds now.
    pub fn next(&mut self, state: &State) -> Move {
        loop {
            if let Some(next) = self.waiting.pop_front() {
                return next;
            }
            let Some(call) = self.ahead.pop_front() else {
                self.begin();
                continue;
            };
            if matches!(call, Call::Date(_) | Call::State) {
                continue;
            }
            self.go_on_with(call, state);
        }
    }

    fn begin(&mut self) {
        self.ahead = histories::calls(self.seed, self.histories).into();
        self.made.clear();
        self.histories += 1;
    }

    /// A call of the history; before it mutated ones, behind it questions.
    fn go_on_with(&mut self, call: Call, state: &State) {
        for _ in 0..self.random.pick(&[0, 1, 1, 2]) {
            let call = self.mutated(&call, state.time);
            // Now and then the history goes on from there, unless it could not.
            let aside = !self.random.one_in(12) || runs_ahead(&call, state.time);
            self.waiting.push_back(Move { call, aside });
        }
        let question = self.question(&call, state);
        self.made.push(call.clone());
        self.waiting.push_back(Move { call, aside: false });
        self.waiting.extend(question.map(|call| Move { call, aside: true }));
    }

    /// A call mutated: most often the one that comes next, else one that was made.
    fn mutated(&mut self, next: &Call, start: i64) -> Call {
        let other = self.any_file();
        let call = match self.made.len() {
            count @ 1.. if self.random.one_in(3) => &self.made[self.random.below(count)],
            _ => next,
        };
        mutated(call, &other, start, &mut self.random)
    }

    /// A file of the history.
    fn any_file(&mut self) -> Vec<u8> {
        let calls = self.made.iter().chain(&self.ahead);
        let files: Vec<&Vec<u8>> = calls.filter_map(file_of).collect();
        match files.len() {
            0 => Vec::new(),
            count => files[self.random.below(count)].clone(),
        }
    }

    /// Something to be digested: a file, or a few blocks of any bytes.
    fn message(&mut self, file: Option<Vec<u8>>) -> Vec<u8> {
        match file {
            Some(file) if self.random.one_in(3) => file,
            _ => (0..self.random.below(300)).map(|_| self.random.byte()).collect(),
        }
    }

    /// A question about what is held, or about the file of a call.
    fn question(&mut self, call: &Call, state: &State) -> Option<Call> {
        let file = file_of(call).cloned();
        match self.random.below(12) {
            0 | 1 => {
                let keyids: Vec<&String> = state.root.iter().flat_map(|root| root.keys.keys()).collect();
                let keyid = keyids.get(self.random.below(keyids.len().max(1)))?;
                Some(Call::Key(keyid.as_bytes().to_vec()))
            }
            2 => Some(Call::Look(file?)),
            3 => {
                let place = self.random.below(18) as u64;
                Some(Call::Entry { file: file?, place })
            }
            4 => Some(Call::Text(file?)),
            5 => Some(Call::Text(damage::damaged(&mut self.random))),
            6 => Some(Call::Sha256(self.message(file))),
            _ => None,
        }
    }
}

/// Whether a cycle goes more than a second beyond the start time in force. No later one takes the clock back (A8), so the
/// files of the history might all be expired from there on.
fn runs_ahead(call: &Call, start: i64) -> bool {
    matches!(call, Call::Cycle(time) if *time > start.saturating_add(1))
}

/// The file of a call that has one.
fn file_of(call: &Call) -> Option<&Vec<u8>> {
    match call {
        Call::Look(file)
        | Call::Entry { file, .. }
        | Call::Install { file, .. }
        | Call::Root { file, .. }
        | Call::Timestamp { file, .. }
        | Call::Snapshot { file, .. }
        | Call::Targets { file, .. }
        | Call::Find { file, .. } => Some(file),
        _ => None,
    }
}

#[cfg(test)]
mod tests {
    use super::{Move, Source, runs_ahead};
    use crate::answers::paper_says;
    use paper::script::Call;
    use paper::state::State;

    fn moves(seed: u64, count: usize) -> Vec<Move> {
        let (mut source, mut state) = (Source::new(seed), State::blank());
        (0..count).map(|_| next_made(&mut source, &mut state)).collect()
    }

    /// Makes the next call of paper.
    fn next_made(source: &mut Source, state: &mut State) -> Move {
        let next = source.next(state);
        match next.aside {
            true => paper_says(&mut state.clone(), &next.call),
            false => paper_says(state, &next.call),
        };
        next
    }

    #[test]
    fn a_seed_gives_the_same_calls_again() {
        assert_eq!(moves(3, 300), moves(3, 300));
        assert_ne!(moves(3, 300), moves(4, 300));
    }

    #[test]
    fn some_calls_are_made_aside() {
        let aside = moves(1, 1_000).iter().filter(|one| one.aside).count();
        assert!((200..800).contains(&aside), "{aside}");
    }

    #[test]
    fn of_the_cycles_that_run_ahead_only_the_historys_own_are_gone_on_with() {
        let (mut source, mut state) = (Source::new(1), State::blank());
        let mut start = state.time;
        let (mut own, mut aside) = (0, 0);
        for _ in 0..20_000 {
            if source.waiting.is_empty() {
                start = state.time;
            }
            let next = next_made(&mut source, &mut state);
            if !runs_ahead(&next.call, start) {
                continue;
            }
            if next.aside {
                aside += 1;
            } else {
                assert_eq!(source.made.last(), Some(&next.call));
                own += 1;
            }
        }
        assert!(own > 50 && aside > 50, "{own} and {aside}");
    }

    #[test]
    fn more_than_a_second_is_ahead() {
        let ahead = [4, 5, 6, 7].map(|time| runs_ahead(&Call::Cycle(time), 5));
        assert_eq!(ahead, [false, false, false, true]);
        assert!(!runs_ahead(&Call::Cycle(i64::MAX), i64::MAX) && runs_ahead(&Call::Cycle(0), i64::MIN));
    }
}
