//! Why a call is refused.

use core::error::Error;
use core::fmt;

/// Why a call is refused: document 01's table, with 16 of change request A1 and 17 of A8. A call answers with the lowest number whose
/// condition holds, of those that it uses; only 16 is out of this order, tried between 3 and 4. A new cycle alone uses 17, and no other.
#[derive(Clone, Copy, Debug, PartialEq, Eq, PartialOrd, Ord, Hash)]
#[repr(u8)]
#[non_exhaustive]
pub enum Refusal {
    /// The file is longer than 32,768 bytes.
    TooLong = 1,
    /// Not canonical JSON text, empty input included.
    NotText = 2,
    /// A member is missing, or has not its form.
    BadForm = 3,
    /// The spec_version is neither `1` nor begins with `1.`.
    OtherSpec = 4,
    /// A verdict row of another length than the entries, a verdict not 0 or 1, or an image's digest not 32 bytes.
    BadArgument = 5,
    /// A record that the step needs is not held, or not current.
    NotHeld = 6,
    /// A record that the step leans on has expired.
    HeldExpired = 7,
    /// Length or digest differs from what is listed.
    OtherContent = 8,
    /// Too few different keys of the held root.
    FewHeldKeys = 9,
    /// Too few different keys of the new root itself.
    FewOwnKeys = 10,
    /// Wrong version.
    WrongVersion = 11,
    /// Same timestamp version: normal, no news. Go on with what is held.
    NoNews = 12,
    /// A listed version went back, or a name vanished.
    WentBack = 13,
    /// The offered file has expired.
    FileExpired = 14,
    /// Not listed.
    NotListed = 15,
    /// A keyid in a key table is not the digest of its key.
    OtherKeyid = 16,
    /// Start time earlier than the latest one the state has had.
    EarlierStart = 17,
}

impl Refusal {
    /// Every refusal, by rising number.
    pub const ALL: [Refusal; 17] = [
        Refusal::TooLong,
        Refusal::NotText,
        Refusal::BadForm,
        Refusal::OtherSpec,
        Refusal::BadArgument,
        Refusal::NotHeld,
        Refusal::HeldExpired,
        Refusal::OtherContent,
        Refusal::FewHeldKeys,
        Refusal::FewOwnKeys,
        Refusal::WrongVersion,
        Refusal::NoNews,
        Refusal::WentBack,
        Refusal::FileExpired,
        Refusal::NotListed,
        Refusal::OtherKeyid,
        Refusal::EarlierStart,
    ];

    /// Its number in document 01's table.
    pub const fn number(self) -> u8 {
        self as u8
    }

    /// The refusal of that number.
    pub fn numbered(number: u8) -> Option<Refusal> {
        Refusal::ALL.into_iter().find(|refusal| refusal.number() == number)
    }

    const fn words(self) -> &'static str {
        match self {
            Refusal::TooLong => "file longer than 32,768 bytes",
            Refusal::NotText => "not canonical text, empty input included",
            Refusal::BadForm => "a form is broken",
            Refusal::OtherSpec => "spec_version is neither 1 nor begins with 1.",
            Refusal::BadArgument => {
                "a verdict row of another length than the entries, a verdict not 0 or 1, or a digest not 32 bytes"
            }
            Refusal::NotHeld => "a record the step needs is not held, or not current",
            Refusal::HeldExpired => "a record the step leans on has expired",
            Refusal::OtherContent => "length or digest differs from what is listed",
            Refusal::FewHeldKeys => "too few different keys of the held root",
            Refusal::FewOwnKeys => "too few different keys of the new root itself",
            Refusal::WrongVersion => "wrong version",
            Refusal::NoNews => "same timestamp version: normal, no news",
            Refusal::WentBack => "a listed version went back, or a name vanished",
            Refusal::FileExpired => "the offered file has expired",
            Refusal::NotListed => "not listed",
            Refusal::OtherKeyid => "a keyid in a key table is not the digest of its key",
            Refusal::EarlierStart => "start time earlier than the latest one the state has had",
        }
    }
}

/// The words of document 01's table.
impl fmt::Display for Refusal {
    fn fmt(&self, f: &mut fmt::Formatter<'_>) -> fmt::Result {
        f.pad(self.words())
    }
}

impl Error for Refusal {}

/// An answer of the archive: 0 is "accepted".
///
/// No function of the archive answers above 17; that is proved. Another number means that the archive is of another version than this crate.
pub(crate) fn answered(number: u8) -> Result<(), Refusal> {
    match (number, Refusal::numbered(number)) {
        (0, _) => Ok(()),
        (_, Some(refusal)) => Err(refusal),
        _ => unreachable!("libgronwythal.a answers {number}, which this version of the crate has no word for"),
    }
}
