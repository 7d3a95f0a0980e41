//! A file before it is offered, with everything that the caller gives beside it.

use super::signing::Signing;
use crate::calls::Call;
use crate::groups::{damage, mutants};
use crate::random::Random;
use crate::shelf::files::{self, Header, LONGEST, Root, Snapshot, Targets, Timestamp};
use crate::shelf::keyids::mended;
use crate::shelf::tree::Tree;

/// What a file says.
#[derive(Clone, Debug)]
pub enum Plan {
    /// A first root, and the start time.
    First(Root, i64),
    /// A later root.
    Root(Root),
    /// A timestamp.
    Timestamp(Timestamp),
    /// A snapshot.
    Snapshot(Snapshot),
    /// A targets file.
    Targets(Targets),
}

impl Plan {
    /// The signed part.
    pub fn signed(&self) -> Tree {
        match self {
            Plan::First(root, _) | Plan::Root(root) => root.signed(),
            Plan::Timestamp(timestamp) => timestamp.signed(),
            Plan::Snapshot(snapshot) => snapshot.signed(),
            Plan::Targets(targets) => targets.signed(),
        }
    }

    /// Version and expiry.
    pub fn header(&mut self) -> &mut Header {
        match self {
            Plan::First(root, _) | Plan::Root(root) => &mut root.header,
            Plan::Timestamp(timestamp) => &mut timestamp.header,
            Plan::Snapshot(snapshot) => &mut snapshot.header,
            Plan::Targets(targets) => &mut targets.header,
        }
    }
}

/// What is done to the file once it is made.
#[derive(Clone, Copy, Debug)]
pub enum Edit {
    /// Nothing.
    None,
    /// One edit of its form.
    Form,
    /// One edit of its form, after which the keys of a root have their true keyids again.
    MendedForm,
    /// One edit of its text.
    Text,
    /// It is made so long.
    Padded(usize),
}

/// A file to be offered.
#[derive(Clone, Debug)]
pub struct Offer {
    /// What it says.
    pub plan: Plan,
    /// Its entries and their verdicts.
    pub signing: Signing,
    /// What is done to it.
    pub edit: Edit,
}

impl Offer {
    /// A file without a fault.
    pub fn new(plan: Plan, signing: Signing) -> Offer {
        Offer {
            plan,
            signing,
            edit: Edit::None,
        }
    }

    /// The file.
    pub fn file(&self, random: &mut Random) -> Vec<u8> {
        let tree = files::file(self.plan.signed(), &self.signing.keys);
        match self.edit {
            Edit::None => tree.written(),
            Edit::Form => mutants::any(&tree, random).written(),
            Edit::MendedForm => mended(&mutants::any(&tree, random)).written(),
            Edit::Text => damage::edited(tree.written(), random),
            Edit::Padded(length) if tree.written().len() + 100 < LONGEST => {
                files::padded(&tree, length, random.one_in(2))
            }
            Edit::Padded(_) => tree.written(),
        }
    }

    /// The call that offers it.
    pub fn call(&self, random: &mut Random) -> Call {
        let file = self.file(random);
        let row = |number: usize| self.signing.rows.get(number).cloned().unwrap_or_default();
        match &self.plan {
            Plan::First(_, time) => Call::Install {
                file,
                row: row(0),
                time: *time,
            },
            Plan::Root(_) => Call::Root {
                file,
                held_row: row(0),
                own_row: row(1),
            },
            Plan::Timestamp(_) => Call::Timestamp { file, row: row(0) },
            Plan::Snapshot(_) => Call::Snapshot { file, row: row(0) },
            Plan::Targets(_) => Call::Targets { file, row: row(0) },
        }
    }
}
