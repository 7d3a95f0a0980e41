//! Document 01 as ordinary Rust for production: `paper`'s way without its waste.
//!
//! A file is parsed into a tree of values ([`tree`]), and the forms ([`forms`]) take the tree apart. The parse is the only
//! one, and it validates: nothing is written again to be compared. The tree borrows: a string or number is a part of the
//! file, its escapes still on, and the members of an object stand in a `Vec` in the order of the text, which is that of the
//! names. So only the arrays and objects of the tree are allocated, and what the state keeps.

pub mod forms;
pub mod tree;

use common::records::{Root, Signed, Snapshot, Targets, Timestamp};
use common::{Forms, Refusal};

/// Reads files by way of a tree.
#[derive(Clone, Debug)]
pub struct Tree;

/// The trusted state, of files that are read by way of a tree.
pub type State = common::State<Tree>;

impl Forms for Tree {
    fn is_canonical(text: &[u8]) -> bool {
        tree::parse(text).is_ok()
    }

    fn root(file: &[u8]) -> Result<Signed<Root>, Refusal> {
        forms::root(file)
    }

    fn timestamp(file: &[u8]) -> Result<Signed<Timestamp>, Refusal> {
        forms::timestamp(file)
    }

    fn snapshot(file: &[u8]) -> Result<Signed<Snapshot>, Refusal> {
        forms::snapshot(file)
    }

    fn targets(file: &[u8], path: Option<&[u8]>) -> Result<Signed<Targets>, Refusal> {
        forms::targets(file, path)
    }
}
