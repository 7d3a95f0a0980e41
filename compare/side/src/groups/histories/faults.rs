//! What can be wrong with an offer. A fault may also turn out to be none.

use super::History;
use super::offers::{Edit, Offer, Plan};
use super::signing::sign;
use crate::random::Random;
use crate::shelf::files::{HIGHEST_VERSION, LONGEST, Role, Root};

/// Keys that no root has under their own keyids.
const OTHER_KEYS: std::ops::RangeInclusive<usize> = 800..=840;

/// One fault, put into an offer.
pub type Fault = fn(&mut History, &mut Offer);

/// Every fault; those of signing and of versions are tried more often than their number.
pub const FAULTS: &[Fault] = &[
    too_few_keys,
    too_few_keys,
    too_few_keys,
    other_version,
    other_version,
    other_version,
    other_expiry,
    other_expiry,
    other_listing,
    other_listing,
    other_listing,
    spoilt_row,
    spoilt_row,
    other_keyid,
    other_spec_version,
    |_, offer| offer.edit = Edit::Form,
    |_, offer| offer.edit = Edit::MendedForm,
    |_, offer| offer.edit = Edit::Text,
    long,
];

/// Makes the file as long as it may be, or a little longer. Such files are large, so it is done only now and then.
fn long(history: &mut History, offer: &mut Offer) {
    if history.random.one_in(6) {
        offer.edit = Edit::Padded(history.random.between(LONGEST - 1, LONGEST + 2));
    }
}

/// Signs anew with too few keys of one or both of the roles that judge the file.
fn too_few_keys(history: &mut History, offer: &mut Offer) {
    let judges = history.judges(&offer.plan);
    let enough = match judges.len() {
        1 => [false, false],
        _ => history.random.pick(&[[false, true], [true, false], [false, false]]),
    };
    let judges: Vec<(&Role, bool)> = judges.iter().zip(enough).collect();
    offer.signing = sign(&judges, &mut history.random);
    // Often still fewer verify.
    if history.random.one_in(2) {
        for verdict in offer.signing.rows.iter_mut().flatten() {
            *verdict &= history.random.below(2) as u8;
        }
    }
}

/// A version near the one that is right, at one of the limits, or beyond.
fn other_version(history: &mut History, offer: &mut Offer) {
    let version = offer.plan.header().version;
    let held = history.held_version(&offer.plan);
    let others = [
        0,
        1,
        2,
        version.saturating_sub(1),
        version.saturating_add(1),
        version.saturating_add(2),
        held,
        held.saturating_sub(1),
        held + 1,
        held + 2,
        held + (1 << 32),
        held + 1 + (1 << 32),
        HIGHEST_VERSION - 1,
        HIGHEST_VERSION,
        HIGHEST_VERSION + 1,
        version.saturating_add(1 << 32),
        u64::MAX,
    ];
    offer.plan.header().version = history.random.pick(&others);
}

/// An expiry at, before or just after the start time, or at one of the ends.
fn other_expiry(history: &mut History, offer: &mut Offer) {
    let time = history.time();
    let others = [
        time,
        time,
        time.saturating_sub(1),
        time.saturating_add(1),
        time.saturating_sub(100_000_000_000),
        0,
        -1,
        i64::MIN,
        i64::MAX,
    ];
    offer.plan.header().expires = history.random.pick(&others);
}

/// What the file lists of others: lowered, raised, vanished, another length or digest.
fn other_listing(history: &mut History, offer: &mut Offer) {
    let random = &mut history.random;
    match &mut offer.plan {
        Plan::Timestamp(timestamp) => {
            let listed = &mut timestamp.snapshot;
            match random.below(5) {
                0 | 1 => listed.version = lowered(listed.version, random),
                2 => listed.version = listed.version.saturating_add(random.pick(&[1, 1, 1 << 32])),
                3 => listed.length = Some(random.below(5_000) as u64),
                _ => listed.sha256 = Some([random.byte(); 32]),
            }
        }
        Plan::Snapshot(snapshot) => {
            let names: Vec<String> = snapshot.meta.keys().cloned().collect();
            // An earlier fault may have left no name.
            if names.is_empty() {
                return;
            }
            let name = &names[random.below(names.len())];
            if random.one_in(3) {
                snapshot.meta.remove(name);
            } else if let Some(listed) = snapshot.meta.get_mut(name) {
                listed.version = lowered(listed.version, random);
            }
        }
        Plan::Targets(targets) => drop(targets.targets.pop_first()),
        Plan::First(root, _) | Plan::Root(root) => {
            let roles = [
                &mut root.root,
                &mut root.timestamp,
                &mut root.snapshot,
                &mut root.targets,
            ];
            for role in roles {
                spoil_role(role, random);
            }
        }
    }
}

/// A lower version, some of them with the same low 32 bits.
fn lowered(version: u64, random: &mut Random) -> u64 {
    version.saturating_sub(random.pick(&[1, 1, 2, 2, 1 << 32]))
}

/// A role that names a key twice, one that is not in the table, or too many or too few as enough.
fn spoil_role(role: &mut Role, random: &mut Random) {
    match random.below(8) {
        0 => role.keys.push(role.keys[0]),
        1 => role.keys.push(999),
        2 => role.threshold = role.keys.len() as u64 + 1,
        3 => role.threshold = 0,
        _ => {}
    }
}

/// A row of another length, or with a verdict that is none.
fn spoilt_row(history: &mut History, offer: &mut Offer) {
    let random = &mut history.random;
    let number = random.below(offer.signing.rows.len());
    let row = &mut offer.signing.rows[number];
    match random.below(5) {
        0 => drop(row.pop()),
        1 => row.push(random.below(2) as u8),
        2 => row.clear(),
        _ if row.is_empty() => row.push(1),
        3 => {
            let place = random.below(row.len());
            row[place] = random.pick(&[2, 3, 128, 255, b'0', b'1']);
        }
        _ => row.insert(0, 1),
    }
}

/// A key under the keyid of another: one that the root has not, or two of its own exchanged. Only roots have keys.
fn other_keyid(history: &mut History, offer: &mut Offer) {
    if let Plan::First(root, _) | Plan::Root(root) = &mut offer.plan {
        spoil_key(root, &mut history.random);
    }
}

fn spoil_key(root: &mut Root, random: &mut Random) {
    let numbers: Vec<usize> = root.keys.keys().copied().collect();
    let (one, other) = (random.pick(&numbers), random.pick(&numbers));
    if one != other && random.one_in(2) {
        root.keys.extend([(one, other), (other, one)]);
    } else {
        root.keys
            .insert(one, random.between(*OTHER_KEYS.start(), *OTHER_KEYS.end()));
    }
}

fn other_spec_version(history: &mut History, offer: &mut Offer) {
    let others = ["1", "1.", "2", "10", "", "1\"", "1.0.\\", "0.9", "1 "];
    offer.plan.header().spec_version = history.random.pick(&others).to_string();
}
