//! The lines of a script themselves: what is a call, what is passed over, what is an error.
//!
//! What docs/REPLAY.md leaves open is left out: an empty word, a number with idle zeros, what no program has to hold.

use super::all_of;
use crate::calls::Line;
use crate::compare::{Case, Cases, Group};

/// The groups: one for the calls that hold nothing, one for all.
pub fn groups() -> Vec<Group> {
    vec![
        Group {
            name: "script, lines",
            calls: &["text", "date"],
            cases: |_| lines(),
            least: 40,
            shares: &[("error", 10), ("text 0", 10)],
            complete: &[],
            renewed: false,
        },
        Group {
            name: "script, arguments",
            calls: &[
                "text",
                "look",
                "entry",
                "key",
                "install",
                "cycle",
                "root",
                "timestamp",
                "snapshot",
                "targets",
                "find",
                "image",
                "sha256",
                "state",
            ],
            cases: |_| arguments(),
            least: 90,
            shares: &[("error", 10), ("cycle 0", 10)],
            complete: &[],
            renewed: false,
        },
    ]
}

/// A line that is answered; of an error only that it is one is stated.
fn answered(line: &str, stated: &str) -> Case {
    Case::stated(Line::Raw(line.as_bytes().to_vec()), stated)
}

/// A line that is passed over.
fn passed_over(line: &str) -> Case {
    Case::open(Line::Raw(line.as_bytes().to_vec()))
}

/// Every way to write bytes, and lines that are no call.
fn lines() -> Cases {
    let sound = [
        ("date '1985-10-21T01:21:00Z", "date 498705660"),
        ("date 313938352d31302d32315430313a32313a30305a", "date 498705660"),
        ("date -", "date bad"),
        ("text '[-0]", "text 2"),
        ("text '{\"a\":1,\"a!\":2}", "text 0"),
        ("text 30", "text 0"),
        ("text '30", "text 0"),
        ("text -", "text 2"),
        ("text '", "text 2"),
        ("text '-", "text 2"),
        ("text ''", "text 2"),
        ("text '@000-root.json", "text 2"),
        ("text '#", "text 2"),
        ("text @000-root.json", "text 0"),
        ("text @000-root.printed", "text 2"),
        ("text @../published/003-targets.json", "text 0"),
    ];
    let broken = [
        "x",
        "Text 30",
        "texts 30",
        "text",
        "text 30 30",
        "text  30",
        " text 30",
        "text 3",
        "text 303",
        "text 3G",
        "text 3A",
        "text 0x30",
        "text --",
        "text -0",
        "text 30'",
        "text '3 0",
        "text @no/such/file",
        "text @",
        "date",
        "date - -",
    ];
    let mut cases = vec![passed_over("# a comment"), passed_over(""), passed_over("#")];
    for (line, stated) in sound {
        cases.push(answered(line, stated));
        cases.push(passed_over(""));
    }
    for line in broken {
        cases.push(answered(line, "error"));
        cases.push(passed_over("#text 30"));
        cases.push(answered("text 30", "text 0"));
    }
    // "holds a line of at least 300,000 bytes"
    cases.push(answered(&format!("text '\"{}\"", "x".repeat(299_992)), "text 1"));
    cases.push(answered(&format!("text {}", "30".repeat(149_000)), "text 1"));
    cases.push(answered(&format!("date {}", "30".repeat(149_000)), "date bad"));
    all_of(cases)
}

/// Numbers at the ends of their types, too many and too few words of every call.
fn arguments() -> Cases {
    const HELD: &str = "root=1 timestamp=- snapshot=- targets=- time=7";
    let sound = [
        ("look '{\"signatures\":[],\"signed\":{}}", "look 0 26 2 0"),
        (
            "look 7b227369676e617475726573223a5b5d2c227369676e6564223a7b7d7d",
            "look 0 26 2 0",
        ),
        ("entry '{\"signatures\":[],\"signed\":{}} 0", "entry 15"),
        (
            "entry '{\"signatures\":[],\"signed\":{}} 18446744073709551615",
            "entry 15",
        ),
        ("key '", "key 6"),
        // From the lowest start time to the highest; no one goes back (A8).
        (
            "cycle -9223372036854775808",
            "cycle 0 root=- timestamp=- snapshot=- targets=- time=-9223372036854775808",
        ),
        ("cycle -1", "cycle 0 root=- timestamp=- snapshot=- targets=- time=-1"),
        ("cycle 0", "cycle 0 root=- timestamp=- snapshot=- targets=- time=0"),
        ("cycle -1", "cycle 17 root=- timestamp=- snapshot=- targets=- time=0"),
        (
            "cycle 9223372036854775807",
            "cycle 0 root=- timestamp=- snapshot=- targets=- time=9223372036854775807",
        ),
        (
            "cycle -9223372036854775808",
            "cycle 17 root=- timestamp=- snapshot=- targets=- time=9223372036854775807",
        ),
        ("image 18446744073709551615 - 0 -", "image 5"),
        (
            "state",
            "state root=- timestamp=- snapshot=- targets=- time=9223372036854775807",
        ),
        (
            "sha256 'abc",
            "sha256 ba7816bf8f01cfea414140de5dae2223b00361a396177a9cb410ff61f20015ad",
        ),
        (
            "sha256 616263",
            "sha256 ba7816bf8f01cfea414140de5dae2223b00361a396177a9cb410ff61f20015ad",
        ),
        (
            "sha256 -",
            "sha256 e3b0c44298fc1c149afbf4c8996fb92427ae41e4649b934ca495991b7852b855",
        ),
        (
            "sha256 '",
            "sha256 e3b0c44298fc1c149afbf4c8996fb92427ae41e4649b934ca495991b7852b855",
        ),
        ("timestamp @003-timestamp.json 01", "timestamp 6"),
        ("install @003-root.json 01 -9223372036854775808", "install 0 root=1"),
        ("install @003-root.json 01 9223372036854775807", "install 0 root=1"),
        ("install @003-root.json 01 7", "install 0 root=1"),
        ("timestamp @003-timestamp.json -", "timestamp 5"),
        ("timestamp @003-timestamp.json '\u{1}\u{1}", "timestamp 5"),
        (
            "key 'cb3fbd83df4ba2471a736b065650878280964a98843ec13b457a99b2a21cc3b4",
            "key 0 66dd78c5c2a78abc6fc6b267ff1a8017ba0e8bfc853dd97af351949bba021275",
        ),
    ];
    // A root is held then. What is no call leaves it as it is.
    let broken = [
        "look",
        "look - -",
        "entry -",
        "entry - -1",
        "entry - 18446744073709551616",
        "entry - x",
        "entry - - 0",
        "entry 0 -",
        "key",
        "key - -",
        "install - -",
        "install - - x",
        "install - - 9223372036854775808",
        "install - - - 0",
        "install @no/such/file 01 7",
        "cycle",
        "cycle -",
        "cycle 1 2",
        "cycle 1x",
        "cycle --1",
        "cycle 9223372036854775808",
        "cycle -9223372036854775809",
        "cycle 99999999999999999999999999999999",
        "root - -",
        "root - - - -",
        "timestamp -",
        "timestamp - - -",
        "snapshot -",
        "snapshot - - -",
        "targets -",
        "targets - - -",
        "find -",
        "find - - -",
        "sha256",
        "sha256 - -",
        "sha256 3",
        "sha256 3G",
        "sha256 AB",
        "sha256 @no/such/file",
        "image 1 - 1",
        "image 1 - 1 - 1",
        "image -1 - 1 -",
        "image 1 - 18446744073709551616 -",
        "image - 1 - 1",
        "state 1",
        "states",
    ];
    let mut cases: Vec<Case> = sound.map(|(line, stated)| answered(line, stated)).into();
    for line in broken {
        cases.push(answered(line, "error"));
        cases.push(passed_over("# nothing"));
        cases.push(answered("cycle 7", &format!("cycle 0 {HELD}")));
    }
    cases.push(answered("state", &format!("state {HELD}")));
    all_of(cases)
}
