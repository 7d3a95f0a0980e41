//! Runs `replay` and `paper` side by side.
//!
//! Every group of inputs is one script. A thread writes it to replay's standard input and notes what paper says to each
//! line; the answers are compared as they come back. Nothing that replay says ever becomes what is expected of it.
//!
//! To let another call join: a case of [`calls::Call`] with its line and paper's answer, the answers it may give, a
//! module of inputs under [`groups`], and its name in the list of calls that are compared.

pub mod calls;
pub mod canonical;
pub mod child;
pub mod compare;
pub mod groups;
pub mod options;
pub mod random;
pub mod shelf;

use std::path::PathBuf;

/// The folder in which the scripts are played: that of the published examples, which some lines name as files.
pub fn folder() -> PathBuf {
    [env!("CARGO_MANIFEST_DIR"), "..", "published"].iter().collect()
}
