//! Document 01 as plain Rust made for speed: the faster of the two baselines that the library is measured against.
//!
//! One pass: the forms ([`forms`]) drive the cursor over the text. An object's reader is given each name as a borrowed part
//! of the file and reads the value it wants or skips it, so a file that is accepted is gone over once (and once more by
//! `str::from_utf8`). Only a file that is not accepted is validated again, to tell a broken form from broken text. There is
//! no tree of values. Nothing is copied but what the state keeps, and there are at most two allocations for a file: the
//! keyids of its entries, and a root's key table or a snapshot's list.

pub mod forms;

use common::records::{Root, Signed, Snapshot, Targets, Timestamp};
use common::{Forms, Refusal, text};

/// Reads files in one pass.
#[derive(Clone, Debug)]
pub struct OnePass;

/// The trusted state, of files that are read in one pass.
pub type State = common::State<OnePass>;

impl Forms for OnePass {
    fn is_canonical(text: &[u8]) -> bool {
        text::is_canonical(text)
    }

    fn root(file: &[u8]) -> Result<Signed<Root>, Refusal> {
        forms::root(file)
    }

    fn timestamp(file: &[u8]) -> Result<Signed<Timestamp>, Refusal> {
        forms::timestamp(file)
    }

    fn snapshot(file: &[u8]) -> Result<Signed<Snapshot>, Refusal> {
        forms::snapshot(file)
    }

    fn targets(file: &[u8], path: Option<&[u8]>) -> Result<Signed<Targets>, Refusal> {
        forms::targets(file, path)
    }
}
