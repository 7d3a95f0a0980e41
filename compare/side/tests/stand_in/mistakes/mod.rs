//! Mistakes that an implementation of document 01 might make. Each is made by answering for other bytes or another state
//! than those given, or by refusing where there is nothing to refuse. The comparison has to notice every one of them.

mod clock;
mod forms;
mod keyids;
mod lines;
mod questions;
mod search;
mod steps;
mod texts;
mod versions;

use paper::script::{Call, Script};

pub use lines::{error, line};

/// The answer of a library with this mistake; `None` where the mistake plays no part.
pub fn answer(mistake: &str, script: &mut Script, call: &Call) -> Option<String> {
    texts::answer(mistake, call)
        .or_else(|| questions::answer(mistake, script, call))
        .or_else(|| search::answer(mistake, script, call))
        .or_else(|| keyids::answer(mistake, script, call))
        .or_else(|| versions::answer(mistake, script, call))
        .or_else(|| clock::answer(mistake, script, call))
        .or_else(|| steps::answer(mistake, script, call))
        .or_else(|| forms::answer(mistake, script, call))
}

/// The file of a call that has one.
fn file_of(call: &Call) -> Option<&Vec<u8>> {
    match call {
        Call::Look(file)
        | Call::Entry { file, .. }
        | Call::Install { file, .. }
        | Call::Root { file, .. }
        | Call::Timestamp { file, .. }
        | Call::Snapshot { file, .. }
        | Call::Targets { file, .. }
        | Call::Find { file, .. } => Some(file),
        _ => None,
    }
}

/// The same call with another file.
fn with_file(call: &Call, other: Vec<u8>) -> Call {
    let mut call = call.clone();
    match &mut call {
        Call::Look(file)
        | Call::Entry { file, .. }
        | Call::Install { file, .. }
        | Call::Root { file, .. }
        | Call::Timestamp { file, .. }
        | Call::Snapshot { file, .. }
        | Call::Targets { file, .. }
        | Call::Find { file, .. } => *file = other,
        _ => {}
    }
    call
}

/// The rows of verdicts of a call.
fn rows_of(call: &mut Call) -> Vec<&mut Vec<u8>> {
    match call {
        Call::Root { held_row, own_row, .. } => vec![held_row, own_row],
        Call::Install { row, .. }
        | Call::Timestamp { row, .. }
        | Call::Snapshot { row, .. }
        | Call::Targets { row, .. } => vec![row],
        _ => Vec::new(),
    }
}
