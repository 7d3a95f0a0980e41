//! "What the controller says": the numbered reasons for a refusal.

/// A reason to refuse, named after the row of the document's table. Declared in the order in which they are tried, so that
/// the first of several is their minimum. That is the order of the numbers, but for 16, which is "tried between 3 and 4".
#[derive(Clone, Copy, Debug, PartialEq, Eq, PartialOrd, Ord)]
pub enum Refusal {
    /// "file longer than 32,768 bytes"
    TooLong,
    /// "not canonical text, empty input included"
    NotCanonical,
    /// "a form above is broken"
    BrokenForm,
    /// A keyid of a key table is not "the hex digest of the canonical text of its key".
    OtherKeyid,
    /// "spec_version"
    SpecVersion,
    /// "a verdict row of another length than the entries, a verdict not 0 or 1, a digest not 32 bytes"; only an image is given
    /// a digest.
    BrokenArgument,
    /// "a record the step needs is not held, or not current"
    NotHeld,
    /// "a record the step leans on has expired"
    HeldExpired,
    /// "length or digest differs from what is listed"
    Differs,
    /// "too few different keys of the held root"
    TooFewHeldKeys,
    /// "too few different keys of the new root itself"
    TooFewOwnKeys,
    /// "wrong version"
    WrongVersion,
    /// "same timestamp version: normal, no news"
    NoNews,
    /// "a listed version went back, or a name vanished"
    WentBack,
    /// "the offered file has expired"
    OfferedExpired,
    /// "not listed"
    NotListed,
    /// A8: "A new cycle with an earlier one", than "the latest start time it has had".
    EarlierStart,
}

impl Refusal {
    /// The number in the column "No".
    pub fn number(self) -> u8 {
        match self {
            Refusal::TooLong => 1,
            Refusal::NotCanonical => 2,
            Refusal::BrokenForm => 3,
            Refusal::SpecVersion => 4,
            Refusal::BrokenArgument => 5,
            Refusal::NotHeld => 6,
            Refusal::HeldExpired => 7,
            Refusal::Differs => 8,
            Refusal::TooFewHeldKeys => 9,
            Refusal::TooFewOwnKeys => 10,
            Refusal::WrongVersion => 11,
            Refusal::NoNews => 12,
            Refusal::WentBack => 13,
            Refusal::OfferedExpired => 14,
            Refusal::NotListed => 15,
            Refusal::OtherKeyid => 16,
            Refusal::EarlierStart => 17,
        }
    }
}

/// The number a call answers with: that of the refusal, "0 if none".
pub fn number_of<T>(result: &Result<T, Refusal>) -> u8 {
    match result {
        Ok(_) => 0,
        Err(refusal) => refusal.number(),
    }
}

/// The conditions of the table that hold for one call. All are looked at, in any order; only then is the first found.
#[derive(Debug, Default)]
pub struct Objections {
    holding: Vec<Refusal>,
}

impl Objections {
    /// Notes the refusal if its condition holds.
    pub fn add_if(&mut self, holds: bool, refusal: Refusal) {
        if holds {
            self.holding.push(refusal);
        }
    }

    /// "The lowest number whose condition holds, of those the call uses; 0 if none", and 16 in its place.
    pub fn first(self) -> Result<(), Refusal> {
        match self.holding.into_iter().min() {
            Some(refusal) => Err(refusal),
            None => Ok(()),
        }
    }
}

#[cfg(test)]
mod tests {
    use super::{Objections, Refusal};

    #[test]
    fn numbers_of_the_table_in_the_order_in_which_they_are_tried() {
        let rows = [
            (Refusal::TooLong, 1),
            (Refusal::NotCanonical, 2),
            (Refusal::BrokenForm, 3),
            (Refusal::OtherKeyid, 16),
            (Refusal::SpecVersion, 4),
            (Refusal::BrokenArgument, 5),
            (Refusal::NotHeld, 6),
            (Refusal::HeldExpired, 7),
            (Refusal::Differs, 8),
            (Refusal::TooFewHeldKeys, 9),
            (Refusal::TooFewOwnKeys, 10),
            (Refusal::WrongVersion, 11),
            (Refusal::NoNews, 12),
            (Refusal::WentBack, 13),
            (Refusal::OfferedExpired, 14),
            (Refusal::NotListed, 15),
            (Refusal::EarlierStart, 17),
        ];
        for (refusal, number) in rows {
            assert_eq!(refusal.number(), number);
        }
        assert!(rows.is_sorted());
    }

    #[test]
    fn the_first_is_said() {
        let mut objections = Objections::default();
        objections.add_if(true, Refusal::OfferedExpired);
        objections.add_if(true, Refusal::TooFewHeldKeys);
        objections.add_if(false, Refusal::TooLong);
        assert_eq!(objections.first(), Err(Refusal::TooFewHeldKeys));
        assert_eq!(Objections::default().first(), Ok(()));
    }
}
