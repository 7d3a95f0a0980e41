//! Mistakes about the start time, all of which begin with `clock-`: A8, "The state keeps the latest start time it has had. A new
//! cycle with an earlier one is refused with the new number 17 and changes nothing; an equal one passes. [..] Install starts the
//! record anew."

use std::sync::atomic::{AtomicI64, Ordering};

use paper::script::{Call, Script};
use paper::state::State;

use super::steps::held;

/// The number of A8.
const EARLIER_START: u8 = 17;

/// The latest start time as a library with a mistake keeps it, apart from the one in force.
static LATEST: AtomicI64 = AtomicI64::new(i64::MIN);

/// The answer of a library with this mistake; `None` where the mistake plays no part.
pub fn answer(mistake: &str, script: &mut Script, call: &Call) -> Option<String> {
    let mistake = mistake.strip_prefix("clock-")?;
    let before = script.state.clone();
    let latest = LATEST.load(Ordering::Relaxed);
    let answer = match call {
        Call::Cycle(time) if is_refused(mistake, *time, latest, &before) => refused(mistake, script, *time),
        Call::Cycle(time) => {
            // "clock-never-back" passes an earlier one over in silence.
            script.state.time = match mistake {
                "never-back" => before.time.max(*time),
                _ => *time,
            };
            format!("cycle 0{}", held(script))
        }
        _ => script.call(call),
    };
    let number = answer.split(' ').nth(1).unwrap_or_default().to_string();
    let kept = kept(mistake, call, &number, latest, (&before, &script.state));
    LATEST.store(kept, Ordering::Relaxed);
    Some(answer)
}

/// Whether a cycle is refused. Mistakes of comparing.
fn is_refused(mistake: &str, time: i64, latest: i64, state: &State) -> bool {
    let is_blank = state.root.is_none();
    match mistake {
        "back-accepted" | "never-back" => false,
        "equal-refused" => time <= latest,
        "back-by-a-second-accepted" => time < latest.saturating_sub(1),
        "back-by-a-day-accepted" => time < latest.saturating_sub(86_400),
        "compared-as-u64" => (time as u64) < (latest as u64),
        "compared-as-i32" => (time as i32) < (latest as i32),
        "compared-as-u32" => (time as u32) < (latest as u32),
        "compared-up-to-32-bits" => to_32_bits(time) < to_32_bits(latest),
        "compared-as-f32" => (time as f32) < (latest as f32),
        "compared-as-f64" => (time as f64) < (latest as f64),
        "compared-by-difference" => time.wrapping_sub(latest) < 0,
        "from-0-when-blank" if is_blank => time < latest.max(0),
        "free-when-blank" if is_blank => false,
        "back-accepted-unless-expired" => time < latest && has_expired(state),
        _ => time < latest,
    }
}

fn to_32_bits(time: i64) -> i64 {
    time.clamp(i32::MIN.into(), i32::MAX.into())
}

/// Whether one of the records has expired.
fn has_expired(state: &State) -> bool {
    let expiries = [
        state.root.as_ref().map(|held| held.header.expires),
        state.timestamp.as_ref().map(|held| held.header.expires),
        state.snapshot.as_ref().map(|held| held.header.expires),
        state.targets.as_ref().map(|held| held.header.expires),
    ];
    expiries.into_iter().flatten().any(|expires| expires <= state.time)
}

/// What a refused cycle says, and what it changes although it should change nothing.
fn refused(mistake: &str, script: &mut Script, time: i64) -> String {
    let state = &mut script.state;
    let mut number = EARLIER_START;
    match mistake {
        "refused-sets-it" => state.time = time,
        "refused-drops-timestamp" => state.timestamp = None,
        "refused-drops-snapshot" => state.snapshot = None,
        "refused-drops-targets" => state.targets = None,
        "refused-is-blank" => *state = State::blank(),
        _ => {}
    }
    if let Some(other) = mistake.strip_prefix("refused-with-") {
        number = other.parse().expect("a number");
    }
    let answer = format!("cycle {number}{}", held(script));
    if mistake == "refused-sets-it-unsaid" {
        script.state.time = time;
    }
    answer
}

/// The latest start time after a call. Mistakes of keeping.
fn kept(mistake: &str, call: &Call, number: &str, latest: i64, (before, after): (&State, &State)) -> i64 {
    let is_accepted = number == "0";
    let reset_if = |resets: bool| if resets { i64::MIN } else { latest };
    match (mistake, call) {
        ("kept-by-install", Call::Install { time, .. }) if is_accepted => latest.max(*time),
        ("kept-by-refused-install", Call::Install { .. }) if !is_accepted => latest,
        ("not-kept-of-install", Call::Install { .. }) => i64::MIN,
        (_, Call::Install { .. }) => after.time,
        ("kept-of-install-alone", Call::Cycle(_)) => latest,
        ("raised-by-refused", Call::Cycle(_)) if !is_accepted => latest.saturating_add(1),
        ("lowered-by-refused", Call::Cycle(time)) if !is_accepted => *time,
        (_, Call::Cycle(_)) if is_accepted => after.time,
        ("reset-by-root", Call::Root { .. })
        | ("reset-by-timestamp", Call::Timestamp { .. })
        | ("reset-by-snapshot", Call::Snapshot { .. })
        | ("reset-by-targets", Call::Targets { .. })
        | ("reset-by-find", Call::Find { .. })
        | ("reset-by-key", Call::Key(_)) => reset_if(is_accepted),
        ("reset-by-rotation", Call::Root { .. }) => reset_if(before.targets.is_some() && after.targets.is_none()),
        ("reset-by-state", Call::State) => i64::MIN,
        ("reset-by-refused-root", Call::Root { .. })
        | ("reset-by-refused-timestamp", Call::Timestamp { .. })
        | ("reset-by-refused-snapshot", Call::Snapshot { .. })
        | ("reset-by-refused-targets", Call::Targets { .. })
        | ("reset-by-refused-find", Call::Find { .. }) => reset_if(!is_accepted),
        ("raised-by-root", Call::Root { .. }) | ("raised-by-timestamp", Call::Timestamp { .. }) if is_accepted => {
            latest.saturating_add(1)
        }
        _ => latest,
    }
}
