//! Who signs a file, and what the verdicts say.

use std::collections::BTreeSet;

use crate::random::Random;
use crate::shelf::files::Role;

/// "at most 16 entries"
const MOST_ENTRIES: usize = 16;

/// Keys that no root names.
const STRANGERS: std::ops::Range<usize> = 900..910;

/// The entries of a file by the numbers of their keys, and one row of verdicts for each role that judges it.
#[derive(Clone, Debug)]
pub struct Signing {
    /// In file order.
    pub keys: Vec<usize>,
    /// As many verdicts as entries in each, unless a fault has changed that.
    pub rows: Vec<Vec<u8>>,
}

/// Entries that are enough for each role, or too few, as asked for. Around them stand entries that change nothing: of
/// other keys, of keys of the role that do not verify, and further ones of a key that counts already.
pub fn sign(roles: &[(&Role, bool)], random: &mut Random) -> Signing {
    let counted: Vec<BTreeSet<usize>> = roles
        .iter()
        .map(|(role, enough)| counted(role, *enough, random))
        .collect();
    let mut keys: Vec<usize> = counted.iter().flatten().copied().collect();
    let named: Vec<usize> = roles.iter().flat_map(|(role, _)| role.keys.iter().copied()).collect();
    for _ in 0..random.pick(&[0, 0, 0, 1, 2, 5]) {
        keys.push(match random.below(3) {
            0 if !keys.is_empty() => random.pick(&keys),
            1 if !named.is_empty() => random.pick(&named),
            _ => random.between(STRANGERS.start, STRANGERS.end - 1),
        });
    }
    if roles.iter().any(|(_, enough)| !enough) && random.one_in(2) {
        repeat(&mut keys, random);
    }
    // Those that count stand first, and so they all stay.
    keys.truncate(MOST_ENTRIES);
    random.shuffle(&mut keys);
    let rows = roles
        .iter()
        .zip(&counted)
        .map(|((role, _), counted)| row(&keys, role, counted, random))
        .collect();
    Signing { keys, rows }
}

/// Which keys of the role count: as many as the threshold or more, or fewer, often only one fewer.
fn counted(role: &Role, enough: bool, random: &mut Random) -> BTreeSet<usize> {
    // Another fault may have made it 0, or more than there are keys.
    let threshold = (role.threshold as usize).clamp(1, role.keys.len().max(1));
    let count = match enough {
        true => random.between(threshold, role.keys.len().max(threshold)),
        false if random.one_in(4) => random.below(threshold),
        false => threshold - 1,
    };
    let mut keys = role.keys.clone();
    random.shuffle(&mut keys);
    keys.into_iter().take(count).collect()
}

/// Doubles what is there, for whoever counts entries.
fn repeat(keys: &mut Vec<usize>, random: &mut Random) {
    for _ in 0..random.between(1, 3) {
        keys.extend_from_within(..);
    }
}

/// The verdicts for a role: 1 for some entry of each key that counts, 0 for the role's other keys, anything for keys that
/// it does not name.
fn row(keys: &[usize], role: &Role, counted: &BTreeSet<usize>, random: &mut Random) -> Vec<u8> {
    let mut missing = counted.clone();
    let verdict = |key: &usize| match key {
        key if missing.remove(key) => 1,
        key if role.keys.contains(key) && !counted.contains(key) => 0,
        _ => random.below(2) as u8,
    };
    keys.iter().map(verdict).collect()
}

#[cfg(test)]
mod tests {
    use super::{STRANGERS, sign};
    use crate::random::Random;
    use crate::shelf::files::Role;
    use std::collections::BTreeSet;

    #[test]
    fn as_many_keys_count_as_asked_for() {
        let mut random = Random::new(1, "signing");
        for _ in 0..2_000 {
            let (one, other) = (Role::new([1, 2, 3, 4], 3), Role::new([3, 4, 5], 1));
            let (one, other) = match random.one_in(2) {
                true => (one, other),
                false => (
                    Role::new([1, 2, 3, 4, 5, 6, 7, 8], 7),
                    Role::new([8, 9, 10, 11, 12, 13, 14, 15], 8),
                ),
            };
            let (enough, other_enough) = (random.one_in(2), random.one_in(2));
            let signing = sign(&[(&one, enough), (&other, other_enough)], &mut random);
            for (role, enough, row) in [
                (&one, enough, &signing.rows[0]),
                (&other, other_enough, &signing.rows[1]),
            ] {
                assert_eq!(row.len(), signing.keys.len());
                let verified: BTreeSet<_> = signing
                    .keys
                    .iter()
                    .zip(row)
                    .filter(|(_, verdict)| **verdict == 1)
                    .collect();
                let counting: BTreeSet<_> = verified.iter().map(|(key, _)| **key).collect();
                let count = role.keys.iter().filter(|key| counting.contains(key)).count() as u64;
                assert_eq!(count >= role.threshold, enough, "{signing:?}");
            }
            assert!(signing.keys.iter().all(|key| *key < 16 || STRANGERS.contains(key)));
        }
    }
}
