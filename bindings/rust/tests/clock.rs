//! The clock does not walk back (change request A8): a new cycle with a start time earlier than the latest one that the state has had is 17
//! and changes nothing. Derived by hand from document 01 and A8.

mod small;

use gronwythal::{Refusal, State, Versions, raw};
use small::{FAR, GOOD, accepted, assert_refused, root, snapshot_of, targets, timestamp};

/// When the files expire, but for a list that does so SOON.
const EXPIRED: i64 = 1_893_456_000; // FAR
const SOON: i64 = 1000;
const SOON_DATE: &str = "1970-01-01T00:16:40Z";

/// Rising: both ends, both sides of 1970 and of 32 bits, and of the times above.
const TIMES: [i64; 17] = [
    i64::MIN,
    i64::MIN + 1,
    -4_294_967_297,
    -1,
    0,
    1,
    SOON - 1,
    SOON,
    EXPIRED - 1,
    EXPIRED,
    2_147_483_647,
    2_147_483_648,
    4_294_967_295,
    4_294_967_296,
    4_294_967_297,
    i64::MAX - 1,
    i64::MAX,
];

fn times_before(end: i64) -> impl Iterator<Item = i64> {
    TIMES.into_iter().filter(move |start| *start < end)
}

fn installed(start: i64) -> State {
    State::install(&root(1), GOOD, start).unwrap()
}

/// The state after an update at that time to a list that expires SOON.
fn with_list(list: &[u8], start: i64) -> State {
    let mut state = installed(start);
    state.timestamp(&timestamp(1, 1, FAR), GOOD).unwrap();
    state.snapshot(&snapshot_of(1, "", 1, FAR), GOOD).unwrap();
    state.targets(list, GOOD).unwrap();
    state
}

/// That is the start time in force, and a new cycle is answered by it: an earlier one is 17, and any other sets the start time alone.
#[track_caller]
fn assert_latest(latest: i64, state: &State) {
    let before = state.versions();
    assert_eq!(before.start, latest);
    for start in TIMES {
        if start < latest {
            assert_refused(17, &mut state.clone(), |s| s.new_cycle(start));
        } else {
            let after = accepted(state, |s| s.new_cycle(start));
            assert_eq!(after.versions(), Versions { start, ..before });
        }
    }
}

// ---- What the latest start time is

#[test]
fn on_the_blank_state() {
    assert_latest(i64::MIN, &State::blank());
}

#[test]
fn after_an_accepted_install() {
    for start in TIMES {
        assert_latest(start, &installed(start));
    }
}

/// The state that the archive gives back with the refusal, which the crate drops: any cycle passes on it.
#[test]
fn after_a_refused_install() {
    let (file, row) = (root(1), [0]);
    for refused in TIMES {
        let install = unsafe { raw::gronwythal_install(file.as_ptr(), file.len(), row.as_ptr(), row.len(), refused) };
        assert_eq!(install.answer, Refusal::FewOwnKeys.number());
        for start in TIMES {
            let cycle = raw::gronwythal_new_cycle(install.state, start);
            assert_eq!((cycle.answer, raw::gronwythal_versions(cycle.state).start), (0, start));
        }
    }
}

/// The later of two cycles, also where the second is refused.
#[test]
fn after_two_cycles() {
    for state in [State::blank(), installed(i64::MIN)] {
        for first in TIMES {
            let once = accepted(&state, |s| s.new_cycle(first));
            for second in TIMES {
                let mut twice = once.clone();
                assert_eq!(twice.new_cycle(second).is_ok(), first <= second);
                assert_latest(first.max(second), &twice);
            }
        }
    }
}

/// No other call sets a start time, refused or accepted.
#[test]
fn after_each_call_of_an_update() {
    let steps: [fn(&mut State, &[u8]) -> Result<(), Refusal>; 4] = [
        |s, row| s.root(&root(2), row, row),
        |s, row| s.timestamp(&timestamp(1, 1, FAR), row),
        |s, row| s.snapshot(&snapshot_of(1, "", 1, FAR), row),
        |s, row| s.targets(&targets(1, FAR), row),
    ];
    for start in times_before(EXPIRED) {
        let mut state = installed(start);
        for step in steps {
            assert_refused(9, &mut state, |s| step(s, &[0]));
            assert_latest(start, &state);
            state = accepted(&state, |s| step(s, GOOD));
            assert_latest(start, &state);
        }
    }
}

// ---- What has expired by it

/// The flat battery. What else is held has not expired, and goes on.
#[test]
fn a_refused_cycle_leaves_an_expired_list_expired() {
    let list = targets(1, SOON_DATE);
    let mut state = accepted(&with_list(&list, 0), |s| s.new_cycle(SOON));
    assert_eq!(state.find(&list, b"i"), Err(Refusal::HeldExpired));
    for start in times_before(SOON) {
        assert_refused(17, &mut state, |s| s.new_cycle(start));
        assert_eq!(state.find(&list, b"i"), Err(Refusal::HeldExpired), "{start}");
        assert_refused(14, &mut state, |s| s.targets(&list, GOOD));
    }
    assert_eq!(state.timestamp(&timestamp(2, 1, FAR), GOOD), Ok(()));
    assert_latest(SOON, &state);
}

#[test]
fn a_refused_cycle_leaves_a_fresh_list_fresh() {
    let list = targets(1, SOON_DATE);
    let mut state = with_list(&list, SOON - 1);
    for start in times_before(SOON - 1) {
        assert_refused(17, &mut state, |s| s.new_cycle(start));
        assert_eq!(state.find(&list, b"i").map(|image| image.length), Ok(5), "{start}");
    }
}

/// No cycle takes it back, and by the latest time everything has expired. An install begins anew.
#[test]
fn a_clock_that_ran_ahead() {
    let list = targets(1, SOON_DATE);
    let mut state = accepted(&with_list(&list, 0), |s| s.new_cycle(i64::MAX));
    for start in times_before(i64::MAX) {
        assert_refused(17, &mut state, |s| s.new_cycle(start));
        assert_refused(7, &mut state, |s| s.timestamp(&timestamp(2, 1, FAR), GOOD));
        assert_eq!(state.find(&list, b"i"), Err(Refusal::HeldExpired), "{start}");
    }
    state = with_list(&list, 0);
    assert_latest(0, &state);
    assert_eq!(state.find(&list, b"i").map(|image| image.length), Ok(5));
}
