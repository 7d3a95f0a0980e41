//! A script that tells what is held after each of its steps, so that every answer of a step is stated whole.

use std::fmt::Display;

use super::Recorder;
use super::forms::{self, Kind};
use crate::calls::Call;
use crate::shelf::tree::Tree;

/// The answer of a step that is not refused.
pub const ACCEPTED: u8 = 0;

/// A8: "A new cycle with an earlier one is refused with the new number 17".
const EARLIER_START: u8 = 17;

/// What a step answers: its number, and what is held after it.
pub fn answer<V: Display>(step: &str, number: u8, held: &[Option<V>; 4], time: i64) -> String {
    format!("{step} {number} {}", words(held, time))
}

/// `root=V timestamp=V snapshot=V targets=V time=T`, "each V the held version or `-`".
fn words<V: Display>(held: &[Option<V>; 4], time: i64) -> String {
    let [root, timestamp, snapshot, targets] = held
        .each_ref()
        .map(|version| version.as_ref().map_or("-".to_string(), V::to_string));
    format!("root={root} timestamp={timestamp} snapshot={snapshot} targets={targets} time={time}")
}

/// The start time in force. Only accepted installs and cycles set it, so it is "the latest start time it has had" (A8).
#[derive(Clone, Copy, Debug, PartialEq, Eq)]
pub struct Clock {
    time: i64,
}

impl Default for Clock {
    /// "the blank state, which [..] has the lowest signed 64-bit count as its start time"
    fn default() -> Clock {
        Clock::starting(i64::MIN)
    }
}

impl Clock {
    /// "Install starts the record anew."
    pub fn starting(time: i64) -> Clock {
        Clock { time }
    }

    /// The start time in force.
    pub fn time(self) -> i64 {
        self.time
    }

    /// A new cycle. "A new cycle with an earlier one is refused with the new number 17 and changes nothing; an equal one passes."
    pub fn cycle(&mut self, time: i64) -> u8 {
        if time < self.time {
            return EARLIER_START;
        }
        self.time = time;
        ACCEPTED
    }
}

/// A script, and what is held after it: the versions of root, timestamp, snapshot and targets as they were written, and the
/// start time.
#[derive(Default)]
pub struct Told {
    script: Recorder,
    held: [Option<String>; 4],
    clock: Clock,
}

impl Told {
    /// The script.
    pub fn script(&mut self) -> &mut Recorder {
        &mut self.script
    }

    /// The start time in force.
    pub fn time(&self) -> i64 {
        self.clock.time()
    }

    /// Installs a root of this version. A refused one returns the blank state.
    pub fn install(&mut self, file: &Tree, version: impl Display, time: i64, number: u8) {
        let call = forms::install_at(file, time);
        match number {
            ACCEPTED => {
                self.held = [Some(version.to_string()), None, None, None];
                self.clock = Clock::starting(time);
            }
            _ => (self.held, self.clock) = Default::default(),
        }
        self.step("install", call, number);
    }

    /// Begins a new cycle.
    pub fn cycle(&mut self, time: i64) {
        let number = self.clock.cycle(time);
        self.step("cycle", Call::Cycle(time), number);
    }

    /// Offers a file of this version.
    pub fn offer(&mut self, kind: Kind, file: &Tree, version: impl Display, number: u8) {
        if number == ACCEPTED {
            self.held[kind as usize] = Some(version.to_string());
        }
        self.step(forms::name(kind), forms::offered(kind, file), number);
    }

    /// Offers a root that is accepted and drops these records.
    pub fn offer_rotating(&mut self, file: &Tree, version: impl Display, dropped: &[Kind]) {
        for kind in dropped {
            self.held[*kind as usize] = None;
        }
        self.offer(Kind::Root, file, version, ACCEPTED);
    }

    /// Asks for what is held.
    pub fn state(&mut self) {
        let stated = format!("state {}", words(&self.held, self.time()));
        self.script.stated(Call::State, stated);
    }

    /// Makes the call of a step, and states its number and what is held then.
    fn step(&mut self, step: &str, call: Call, number: u8) {
        let stated = answer(step, number, &self.held, self.time());
        self.script.stated(call, stated);
    }
}
