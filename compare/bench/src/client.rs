//! What is measured, in a form that all sides have.

use common::{Forms, State, number_of, sha256};

/// A side of the comparison: its calls answer by 01's numbers.
pub trait Client: Clone {
    /// The blank state.
    fn blank() -> Self;

    /// Whether the text is canonical.
    fn is_canonical(text: &[u8]) -> bool;

    /// The digest of a message.
    fn sha256(message: &[u8]) -> [u8; 32];

    /// Install, and the state after it.
    fn install(file: &[u8], row: &[u8], start: i64) -> (u8, Self);

    /// New cycle; refused if the start time is earlier than the one in force (A8).
    fn new_cycle(&mut self, start: i64) -> u8;

    /// Root.
    fn root(&mut self, file: &[u8], held_row: &[u8], own_row: &[u8]) -> u8;

    /// Timestamp.
    fn timestamp(&mut self, file: &[u8], row: &[u8]) -> u8;

    /// Snapshot.
    fn snapshot(&mut self, file: &[u8], row: &[u8]) -> u8;

    /// Targets.
    fn targets(&mut self, file: &[u8], row: &[u8]) -> u8;

    /// Find.
    fn find(&self, file: &[u8], path: &[u8]) -> Found;

    /// What is held.
    fn versions(&self) -> Versions;
}

/// What find gives; zeros where it is refused, but for the names compared. Of a digest asked for, only that.
#[derive(Clone, Debug, PartialEq, Eq)]
pub struct Found {
    /// 01's number.
    pub answer: u8,
    /// The listed length.
    pub length: u64,
    /// The listed digest, or the one asked for.
    pub digest: [u8; 32],
    /// How many names were compared.
    pub compared: usize,
}

/// The held versions of root, timestamp, snapshot and targets, and the start time in force.
#[derive(Clone, Debug, PartialEq, Eq)]
pub struct Versions {
    /// The version of each record that is held.
    pub held: [Option<u64>; 4],
    /// The start time.
    pub start: i64,
}

impl<F: Forms + Clone> Client for State<F> {
    fn blank() -> Self {
        State::default()
    }

    fn is_canonical(text: &[u8]) -> bool {
        F::is_canonical(text)
    }

    fn sha256(message: &[u8]) -> [u8; 32] {
        sha256::digest(message)
    }

    fn install(file: &[u8], row: &[u8], start: i64) -> (u8, Self) {
        let result = State::install(file, row, start);
        (number_of(&result), result.unwrap_or_default())
    }

    fn new_cycle(&mut self, start: i64) -> u8 {
        number_of(&self.new_cycle(start))
    }

    fn root(&mut self, file: &[u8], held_row: &[u8], own_row: &[u8]) -> u8 {
        number_of(&self.root(file, held_row, own_row))
    }

    fn timestamp(&mut self, file: &[u8], row: &[u8]) -> u8 {
        number_of(&self.timestamp(file, row))
    }

    fn snapshot(&mut self, file: &[u8], row: &[u8]) -> u8 {
        number_of(&self.snapshot(file, row))
    }

    fn targets(&mut self, file: &[u8], row: &[u8]) -> u8 {
        number_of(&self.targets(file, row))
    }

    fn find(&self, file: &[u8], path: &[u8]) -> Found {
        let found = self.find(file, path);
        let (length, digest) = found
            .image
            .map_or((0, [0; 32]), |target| (target.length, target.sha256));
        Found {
            answer: number_of(&found.image),
            length,
            digest,
            compared: found.compared,
        }
    }

    fn versions(&self) -> Versions {
        let (held, start) = self.versions();
        Versions { held, start }
    }
}

#[cfg(test)]
mod tests {
    use super::{Client, Versions};
    use crate::rattle;

    /// A8: "A new cycle with an earlier one is refused with the new number 17 and changes nothing; an equal one passes."
    fn expect_17_of_an_earlier_cycle<C: Client>() {
        let mut state = C::blank();
        for (start, answer, in_force) in [(5, 0, 5), (4, 17, 5), (5, 0, 5), (i64::MIN, 17, 5), (6, 0, 6)] {
            assert_eq!(state.new_cycle(start), answer, "{start}");
            let held = Versions {
                held: [None; 4],
                start: in_force,
            };
            assert_eq!(state.versions(), held, "{start}");
        }
    }

    #[test]
    fn an_earlier_cycle_is_refused_on_every_side() {
        expect_17_of_an_earlier_cycle::<rattle::State>();
        expect_17_of_an_earlier_cycle::<ordinary::State>();
        expect_17_of_an_earlier_cycle::<onepass::State>();
    }
}
