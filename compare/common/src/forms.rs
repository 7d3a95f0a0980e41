//! The one thing in which the baselines differ.

use crate::records::{Root, Signed, Snapshot, Targets, Timestamp};
use crate::refusal::Refusal;

/// A way to read text and the four files (refusals 1 to 4, of a root also 16).
pub trait Forms {
    /// Whether the bytes are canonical text.
    fn is_canonical(text: &[u8]) -> bool;

    /// A root file.
    fn root(file: &[u8]) -> Result<Signed<Root>, Refusal>;

    /// A timestamp file.
    fn timestamp(file: &[u8]) -> Result<Signed<Timestamp>, Refusal>;

    /// A snapshot file.
    fn snapshot(file: &[u8]) -> Result<Signed<Snapshot>, Refusal>;

    /// A targets file, in which a path may be looked for.
    fn targets(file: &[u8], path: Option<&[u8]>) -> Result<Signed<Targets>, Refusal>;
}
