//! Measures lines: the three sides by turns, the median of many runs.
//!
//! The runs of a line are spread over passes through all lines, so that what else the machine does for a while touches a
//! few runs of every line and not all runs of one. Each run goes to the next shelf.

use std::hint::black_box;
use std::time::{Duration, Instant};

use crate::calls::play;
use crate::client::Client;
use crate::options::Side;
use crate::rattle;
use crate::work::{Play, Work};

/// How often all lines are gone through.
pub const PASSES: usize = 25;

/// The runs of a line in one pass take about this long, on all sides together.
const PASS: Duration = Duration::from_millis(20);

/// At least and at most so many runs of each side in one pass.
const FEWEST_RUNS: usize = 10;
const MOST_RUNS: usize = 100;

/// A run takes about this long at least: shelf after shelf, if one is not enough.
const RUN: Duration = Duration::from_micros(20);

/// At most so many shelves make a run, so that their states stay in the processor's caches.
const MOST_SHELVES: u128 = 16;

/// The orders in which the sides come, one after the other: each side is as often first as second or third, and as often
/// right behind the one as right behind the other.
const ORDERS: [[Side; 3]; 6] = [
    [Side::Rattle, Side::Ordinary, Side::OnePass],
    [Side::OnePass, Side::Ordinary, Side::Rattle],
    [Side::Ordinary, Side::OnePass, Side::Rattle],
    [Side::Rattle, Side::OnePass, Side::Ordinary],
    [Side::OnePass, Side::Rattle, Side::Ordinary],
    [Side::Ordinary, Side::Rattle, Side::OnePass],
];

/// A line, with what was measured of it so far.
pub struct Line {
    /// What is measured.
    pub work: Work,
    rattle: Runs<rattle::State>,
    ordinary: Runs<ordinary::State>,
    one_pass: Runs<onepass::State>,
    /// How many shelves a run goes to.
    shelves: usize,
    /// How many runs a pass has.
    runs: usize,
    /// How many there were.
    done: usize,
}

impl Line {
    /// Compares the answers of all sides, and finds out how long a run takes. Gives the difference if there is one.
    pub fn new(work: Work) -> Result<Line, String> {
        for shelf in &work.shelves {
            check(shelf).map_err(|difference| format!("{}: {difference}", work.name))?;
        }
        let mut line = Line {
            rattle: Runs::new(&work),
            ordinary: Runs::new(&work),
            one_pass: Runs::new(&work),
            work,
            shelves: 1,
            runs: 1,
            done: 0,
        };
        let all = line.shortest().as_nanos().max(1);
        line.shelves = (3 * RUN.as_nanos() / all + 1).min(MOST_SHELVES) as usize;
        let runs = (PASS.as_nanos() / all) as usize / line.shelves;
        line.runs = runs.clamp(FEWEST_RUNS, MOST_RUNS);
        Ok(line)
    }

    /// About how long the calls on one shelf take, on all sides together.
    fn shortest(&self) -> Duration {
        let once = |part, shelf| {
            self.rattle.run(&self.work, part, shelf, 1)
                + self.ordinary.run(&self.work, part, shelf, 1)
                + self.one_pass.run(&self.work, part, shelf, 1)
        };
        let shortest = |part| (0..10).map(|shelf| once(part, shelf)).min().unwrap_or_default();
        (0..self.rattle.times.len()).map(shortest).sum()
    }

    /// Measures the sides by turns.
    pub fn pass(&mut self) {
        for _ in 0..self.runs {
            let first = self.done * self.shelves;
            for part in 0..self.rattle.times.len() {
                for side in ORDERS[self.done % ORDERS.len()] {
                    self.add_run(side, part, first);
                }
            }
            self.done += 1;
        }
    }

    fn add_run(&mut self, side: Side, part: usize, first: usize) {
        match side {
            Side::Rattle => self.rattle.add_run(&self.work, part, first, self.shelves),
            Side::Ordinary => self.ordinary.add_run(&self.work, part, first, self.shelves),
            Side::OnePass => self.one_pass.add_run(&self.work, part, first, self.shelves),
        }
    }

    /// The medians of all runs.
    pub fn times(&self) -> Times {
        Times {
            rattle: self.rattle.time() / self.shelves as f64,
            ordinary: self.ordinary.time() / self.shelves as f64,
            one_pass: self.one_pass.time() / self.shelves as f64,
        }
    }
}

/// What was measured of a line: the time of its calls on one shelf, in microseconds.
pub struct Times {
    /// The library's.
    pub rattle: f64,
    /// That of plain Rust by way of a tree.
    pub ordinary: f64,
    /// That of plain Rust in one pass.
    pub one_pass: f64,
}

/// Plays the calls so many times on one side alone.
pub fn play_times<C: Client>(work: &Work, times: usize) {
    let runs = Runs::<C>::new(work);
    for shelf in 0..times {
        for part in 0..runs.times.len() {
            runs.run(work, part, shelf, 1);
        }
    }
}

/// The runs of a line on one side.
struct Runs<C> {
    /// The state on each shelf before the calls.
    states: Vec<C>,
    /// The time of each run, for each part.
    times: Vec<Vec<Duration>>,
}

impl<C: Client> Runs<C> {
    fn new(work: &Work) -> Runs<C> {
        let state_before = |shelf: &Play| {
            let mut state = C::blank();
            for call in &shelf.before {
                play(&mut state, call);
            }
            state
        };
        Runs {
            states: work.shelves.iter().map(state_before).collect(),
            times: vec![Vec::new(); work.shelves[0].parts.len()],
        }
    }

    fn add_run(&mut self, work: &Work, part: usize, first: usize, shelves: usize) {
        let time = self.run(work, part, first, shelves);
        self.times[part].push(time);
    }

    /// The time of a part's calls on so many shelves one after the other, each on a copy of the state that was made
    /// before the clock started.
    fn run(&self, work: &Work, part: usize, first: usize, shelves: usize) -> Duration {
        let places = (first..first + shelves).map(|shelf| shelf % work.shelves.len());
        let mut plays: Vec<_> = places
            .map(|place| (self.states[place].clone(), &work.shelves[place].parts[part]))
            .collect();
        let begin = Instant::now();
        for (state, calls) in &mut plays {
            for call in *calls {
                black_box(play(state, call));
            }
        }
        let time = begin.elapsed();
        black_box(&plays);
        time
    }

    /// The medians of the parts, added up, in microseconds.
    fn time(&self) -> f64 {
        self.times.iter().map(|times| median(times).as_secs_f64() * 1e6).sum()
    }
}

fn median(times: &[Duration]) -> Duration {
    let mut times = times.to_vec();
    times.sort();
    times[times.len() / 2]
}

/// All sides have to give the same answers, hold the same versions, and accept everything.
fn check(shelf: &Play) -> Result<(), String> {
    let mut rattle = rattle::State::blank();
    let mut ordinary = ordinary::State::blank();
    let mut one_pass = onepass::State::blank();
    for (place, call) in shelf.calls().enumerate() {
        let answers = [
            play(&mut rattle, call),
            play(&mut ordinary, call),
            play(&mut one_pass, call),
        ];
        if !all_equal(&answers) || answers[0].answer != 0 {
            return Err(format!("call {place}: {answers:?}"));
        }
        let versions = [
            Client::versions(&rattle),
            Client::versions(&ordinary),
            Client::versions(&one_pass),
        ];
        if !all_equal(&versions) {
            return Err(format!("after call {place}: {versions:?}"));
        }
    }
    Ok(())
}

fn all_equal<T: PartialEq>(values: &[T]) -> bool {
    values.windows(2).all(|pair| pair[0] == pair[1])
}

#[cfg(test)]
mod tests {
    use super::{Line, ORDERS, check, median};
    use crate::calls::Call;
    use crate::work::{self, Play};
    use std::time::Duration;

    #[test]
    fn what_is_refused_is_not_measured() {
        let play = |calls: Vec<Call>| Play {
            before: Vec::new(),
            parts: vec![calls],
        };
        let text = |text: &[u8]| play(vec![Call::Text(text.into())]);
        assert_eq!(check(&text(b"[]")), Ok(()));
        assert!(check(&text(b"[ ]")).is_err());
        let cycles = |starts: [i64; 2]| play(starts.map(Call::NewCycle).to_vec());
        assert_eq!(check(&cycles([7, 7])), Ok(()));
        assert!(check(&cycles([7, 6])).is_err());
    }

    #[test]
    fn the_sides_agree_on_every_line_and_are_measured() {
        for work in work::all() {
            let parts = work.shelves[0].parts.len();
            let mut line = Line::new(work).unwrap();
            line.runs = 1;
            line.pass();
            assert!(line.rattle.times.iter().all(|times| times.len() == 1) && line.rattle.times.len() == parts);
            let times = line.times();
            for time in [times.rattle, times.ordinary, times.one_pass] {
                assert!(time > 0.0, "{}", line.work.name);
            }
        }
    }

    #[test]
    fn no_side_is_favoured_by_the_orders() {
        let [one, other, third] = ORDERS[0];
        for side in [one, other, third] {
            for place in 0..3 {
                assert_eq!(ORDERS.iter().filter(|order| order[place] == side).count(), 2);
            }
        }
        let pairs = || ORDERS.iter().flat_map(|order| order.windows(2));
        for (before, behind) in [
            (one, other),
            (other, one),
            (one, third),
            (third, one),
            (other, third),
            (third, other),
        ] {
            assert_eq!(pairs().filter(|pair| *pair == [before, behind]).count(), 2);
        }
        // So each shelf is played in every order.
        let shelves = work::all()[0].shelves.len();
        assert!(!shelves.is_multiple_of(2) && !shelves.is_multiple_of(3));
    }

    #[test]
    fn the_median_is_the_one_in_the_middle() {
        let times = [9, 1, 5].map(Duration::from_micros);
        assert_eq!(median(&times), Duration::from_micros(5));
    }
}
