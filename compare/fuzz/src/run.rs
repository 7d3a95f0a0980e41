//! The comparison: a state of the library and one of paper, side by side through all calls.

use std::sync::atomic::{AtomicU64, Ordering};
use std::time::Instant;

use paper::script::Call;
use paper::state::State;
use side::calls::Line;

use crate::answers::{Held, Said, paper_says};
use crate::counts::{Counts, name_of};
use crate::driver::Driver;
use crate::library::Library;
use crate::memory::{Memory, Side};
use crate::options::{Limit, Options};
use crate::source::{Move, Source};
use crate::stream;

/// The number of the call that is being made, for whoever has to say where the program was when it was ended.
pub static CALL: AtomicU64 = AtomicU64::new(0);

/// What a run has shown.
#[derive(Debug)]
pub struct Shown {
    /// The calls made.
    pub counts: Counts,
    /// What the driver said at its end, if there was one.
    pub driver: Option<String>,
}

/// Makes calls for as long as asked for. An error says where library and paper differ, or what never occurred.
pub fn run<L: Library>(library: &L, options: &Options) -> Result<Shown, String> {
    let mut driver = options.driver.as_deref().map(Driver::start).transpose()?;
    let mut pair = Pair::new(library)?;
    let mut source = Source::new(options.seed);
    let mut counts = Counts::default();
    let start = Instant::now();
    let mut record = Vec::new();
    while is_before(options.limit, counts.sum(), start) {
        let made = source.next(&pair.paper);
        let number = counts.sum() + 1;
        CALL.store(number as u64, Ordering::Relaxed);
        let (said, held) = pair
            .make(&made, number)
            .map_err(|difference| shown(options.seed, number, &made, &difference))?;
        counts.add(&made.call, said.number);
        if let Some(driver) = &mut driver {
            record.clear();
            stream::write(&mut record, number, &made, &said, &held);
            if let Err(error) = driver.send(&record) {
                eprintln!("{error}");
                break;
            }
        }
    }
    let driver = driver.map(|driver| driver.finish(counts.sum()));
    let driver = driver
        .transpose()
        .map_err(|error| format!("seed {}: {error}", options.seed))?;
    match counts.missing() {
        missing if missing.is_empty() => Ok(Shown { counts, driver }),
        missing => Err(format!(
            "seed {}, {} calls: never occurred: {}\n{counts}",
            options.seed,
            counts.sum(),
            missing.join(", ")
        )),
    }
}

fn is_before(limit: Limit, calls: usize, start: Instant) -> bool {
    match limit {
        Limit::Calls(count) => calls < count,
        Limit::Time(time) => start.elapsed() < time,
    }
}

/// A difference with all that is needed to see it again.
fn shown(seed: u64, number: usize, made: &Move, difference: &str) -> String {
    const LONGEST: usize = 2_000;
    let mut line = Vec::new();
    Line::Call(made.call.clone()).write(&mut line);
    let length = line.len();
    line.truncate(LONGEST);
    let cut = if length > LONGEST { " ... (cut off)" } else { "" };
    let line = String::from_utf8_lossy(&line);
    let name = name_of(&made.call);
    format!("seed {seed}, call {number}: {name}\n{difference}\n    call:    {line}{cut}")
}

/// Whether the state after a call is the one before it: "A refusal returns the state it was given", and so does a question.
fn leaves_the_state(call: &Call, number: u8) -> bool {
    match call {
        Call::Install { .. } => false,
        Call::Cycle(_) | Call::Root { .. } | Call::Timestamp { .. } | Call::Snapshot { .. } | Call::Targets { .. } => {
            number != 0
        }
        _ => true,
    }
}

/// The two states.
struct Pair<'a, L: Library> {
    library: &'a L,
    state: L::State,
    paper: State,
    memory: Memory,
}

impl<'a, L: Library> Pair<'a, L> {
    fn new(library: &'a L) -> Result<Pair<'a, L>, String> {
        Ok(Pair {
            library,
            state: library.blank(),
            paper: State::blank(),
            memory: Memory::new().map_err(|error| error.to_string())?,
        })
    }

    /// Makes a call of both. An error says where they differ.
    fn make(&mut self, made: &Move, number: usize) -> Result<(Said, Held), String> {
        let mut paper = self.paper.clone();
        let said = paper_says(&mut paper, &made.call).ok_or("no call of the C interface")?;
        let held = Held::of(&paper);

        let side = if number.is_multiple_of(2) {
            Side::End
        } else {
            Side::Start
        };
        let lent = self.memory.lend(&made.call, side).ok_or("no call of the C interface")?;
        let mut state = self.state.clone();
        let answer = self.library.call(&mut state, &lent);

        if answer != said {
            return Err(format!("    library: {answer}\n    paper:   {said}"));
        }
        let library_held = self.library.held(&state);
        if library_held != held {
            return Err(format!(
                "    library: holds {library_held:?}\n    paper:   holds {held:?}"
            ));
        }
        if leaves_the_state(&made.call, said.number) && state != self.state {
            return Err(format!(
                "    library: {answer}, and the bytes of the state have changed\n    paper:   {said}, the state is the one given"
            ));
        }
        if !made.aside {
            self.state = state;
            self.paper = paper;
        }
        Ok((said, held))
    }
}

#[cfg(test)]
mod tests {
    use super::{Shown, run};
    use crate::options::{Limit, Options};
    use crate::stand_in::{MISTAKES, MISTAKES_IN_BYTES, StandIn};

    fn tried(mistake: &'static str, calls: usize) -> Result<Shown, String> {
        let options = Options {
            limit: Limit::Calls(calls),
            seed: 1,
            driver: None,
            help: false,
        };
        run(&StandIn { mistake }, &options)
    }

    #[test]
    fn good_answers_pass_and_every_answer_occurs() {
        let shown = tried("", 40_000).unwrap();
        assert_eq!(shown.counts.sum(), 40_000);
    }

    #[test]
    fn a_short_run_fails() {
        let error = tried("", 20).unwrap_err();
        assert!(error.contains("never occurred"), "{error}");
    }

    #[test]
    fn every_mistake_is_noticed() {
        for mistake in MISTAKES {
            let error = tried(mistake, 40_000).expect_err(mistake);
            for word in ["seed 1, call ", "library: ", "paper: ", "call: "] {
                assert!(error.contains(word), "{mistake}: {error}");
            }
        }
    }

    #[test]
    fn a_mistake_in_bytes_alone_is_noticed_in_the_call_that_makes_it() {
        for (mistake, call) in MISTAKES_IN_BYTES {
            let error = tried(mistake, 40_000).expect_err(mistake);
            assert!(error.contains(&format!(": {call}\n")), "{mistake}: {error}");
            assert!(
                error.contains("the bytes of the state have changed"),
                "{mistake}: {error}"
            );
        }
    }
}
