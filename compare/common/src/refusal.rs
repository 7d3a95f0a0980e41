//! "What the controller says" (01): the numbered answers.

/// A reason to refuse, by its number in 01's table.
#[derive(Clone, Copy, Debug, PartialEq, Eq)]
#[repr(u8)]
pub enum Refusal {
    /// "file longer than 32,768 bytes"
    TooLong = 1,
    /// "not canonical text, empty input included"
    NotCanonical = 2,
    /// "a form above is broken"
    BrokenForm = 3,
    /// "spec_version"
    SpecVersion = 4,
    /// "a verdict row of another length than the entries, a verdict not 0 or 1, a digest not 32 bytes"
    BadArgument = 5,
    /// "a record the step needs is not held, or not current"
    NotHeld = 6,
    /// "a record the step leans on has expired"
    HeldExpired = 7,
    /// "length or digest differs from what is listed"
    OtherContent = 8,
    /// "too few different keys of the held root"
    FewHeldKeys = 9,
    /// "too few different keys of the new root itself"
    FewOwnKeys = 10,
    /// "wrong version"
    WrongVersion = 11,
    /// "same timestamp version: normal, no news"
    NoNews = 12,
    /// "a listed version went back, or a name vanished"
    WentBack = 13,
    /// "the offered file has expired"
    OfferedExpired = 14,
    /// "not listed"
    NotListed = 15,
    /// A keyid of a key table is not "the hex digest of the canonical text of its key". Tried between 3 and 4.
    OtherKeyid = 16,
    /// A8: "A new cycle with an earlier one", than "the latest start time it has had".
    EarlierStart = 17,
}

/// The number that a call answers: that of the refusal, "0 if none".
pub fn number_of<T>(result: &Result<T, Refusal>) -> u8 {
    match result {
        Ok(_) => 0,
        Err(refusal) => *refusal as u8,
    }
}

/// Refuses unless the condition holds. The steps ask their conditions in the order of the table, so the first refusal is
/// "the lowest number whose condition holds", 16 in its place.
pub fn ensure(holds: bool, otherwise: Refusal) -> Result<(), Refusal> {
    if holds { Ok(()) } else { Err(otherwise) }
}
