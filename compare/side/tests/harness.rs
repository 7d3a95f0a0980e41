//! Tests of the comparison itself: it passes a program that answers well, and catches every one that does not.

use std::fs;
use std::os::unix::fs::PermissionsExt;
use std::path::Path;
use std::process::{Command, Output};
use std::time::{Duration, Instant};

/// Runs the comparison of all calls against the stand-in, which behaves in the given manner.
fn side(manner: &str, options: &[&str]) -> Run {
    let output = Command::new(env!("CARGO_BIN_EXE_side"))
        .args(["--all-calls", "--replay", env!("CARGO_BIN_EXE_stand-in")])
        .args(options)
        .env("STAND_IN", manner)
        .output()
        .expect("the comparison starts");
    Run::new(output)
}

struct Run {
    passed: bool,
    text: String,
    errors: String,
}

impl Run {
    fn new(output: Output) -> Run {
        Run {
            passed: output.status.success(),
            text: String::from_utf8(output.stdout).unwrap(),
            errors: String::from_utf8(output.stderr).unwrap(),
        }
    }

    fn last_line(&self) -> &str {
        self.text.lines().last().unwrap_or("")
    }

    fn must_pass(&self, last_line: &str) {
        assert!(self.passed, "{}", self.text);
        assert_eq!(self.last_line(), last_line);
    }

    fn must_fail(&self, last_line: &str, shown: &[&str]) {
        assert!(!self.passed, "{}", self.text);
        assert_eq!(self.last_line(), last_line);
        for shown in shown {
            assert!(self.text.contains(shown), "'{shown}' is missing in:\n{}", self.text);
        }
    }
}

const BY_NAME: &[&str] = &["--only", "by name"];
const LIMITS: &[&str] = &["--only", "text, limits"];

#[test]
fn good_answers_pass() {
    side("", &["--only", "text"]).must_pass("6 passed, 0 failed");
    side("", &["--only", "dates"]).must_pass("4 passed, 0 failed");
    side("", &["--only", "forms"]).must_pass("5 passed, 0 failed");
    side("", &["--only", "look"]).must_pass("2 passed, 0 failed");
    side("", &["--only", "script"]).must_pass("2 passed, 0 failed");
    side("", &["--only", "sha256"]).must_pass("2 passed, 0 failed");
    side("", &["--only", "search"]).must_pass("2 passed, 0 failed");
    for group in [
        "keys",
        "keyids",
        "images",
        "versions",
        "clock",
        "history, by name",
        "published examples",
    ] {
        side("", &["--only", group]).must_pass("1 passed, 0 failed");
    }
}

#[test]
fn good_answers_to_histories_pass() {
    side("", &["--only", "histories"]).must_pass("1 passed, 0 failed");
}

#[test]
fn groups_of_calls_that_are_not_compared_yet_are_left_out_and_named() {
    let groups: Vec<_> = side::groups::all()
        .into_iter()
        .filter(|group| group.name.contains("by name"))
        .collect();
    let left_out = groups
        .iter()
        .filter(|group| !side::groups::missing_calls(group).is_empty());
    let left_out: Vec<&str> = left_out.map(|group| group.name).collect();
    let output = Command::new(env!("CARGO_BIN_EXE_side"))
        .args(["--replay", env!("CARGO_BIN_EXE_stand-in"), "--only", "by name"])
        .output()
        .expect("the comparison starts");
    let run = Run::new(output);
    run.must_pass(&format!("{} passed, 0 failed", groups.len() - left_out.len()));
    for name in left_out {
        assert!(run.text.contains(&format!("{name}: left out")), "{}", run.text);
    }
}

#[test]
fn the_script_of_a_group_can_be_printed() {
    let run = side("", &["--only", "text, by name", "--print"]);
    assert!(
        run.passed && run.text.starts_with("text 7b2261223a312c226121223a327d\n"),
        "{}",
        run.text
    );
}

#[test]
fn answers_may_come_early_or_late() {
    side("prompt", &["--only", "text, pairs"]).must_pass("1 passed, 0 failed");
    side("late", LIMITS).must_pass("1 passed, 0 failed");
    side("late", &["--only", "text, UTF-8"]).must_pass("1 passed, 0 failed");
}

#[test]
fn one_wrong_answer_is_shown_with_its_line_and_seed() {
    let run = side("wrong:1", &["--only", "text, by name", "--seed", "77"]);
    let line = "script: text 7b2261223a312c226121223a327d\n";
    let shown = [
        "seed 77",
        "input 1",
        line,
        "replay: text 2\n",
        "paper:  text 0\n",
        "stated: text 0\n",
    ];
    run.must_fail("0 passed, 1 failed", &shown);

    let run = side("wrong:3", &["--only", "dates, by name"]);
    let line = "script: date 313936392d31322d33315432333a35393a35395a\n";
    run.must_fail(
        "0 passed, 1 failed",
        &["seed 1", "input 3", line, "replay: date bad\n", "paper:  date -1\n"],
    );
}

#[test]
fn one_wrong_answer_in_a_long_script_is_caught() {
    for (group, line) in [
        ("text, generated", 399_999),
        ("dates, every day", 3_652_425),
        ("text, UTF-8", 100_000),
        ("forms, root", 15_000),
    ] {
        let run = side(&format!("wrong:{line}"), &["--only", group]);
        run.must_fail("0 passed, 1 failed", &[&format!("input {line}"), "FAILED, 1 failures"]);
    }
}

#[test]
fn only_the_group_that_failed_counts_as_failed() {
    // The dates are fewer.
    side("wrong:20", BY_NAME).must_fail("1 passed, 3 failed", &["text, by name", "FAILED"]);
}

#[test]
fn a_missing_or_added_line_is_caught() {
    side("silent:5", LIMITS).must_fail("0 passed, 1 failed", &["replay: has ended"]);
    side("double:5", LIMITS).must_fail("0 passed, 1 failed", &["more answers than calls"]);
    side("silent:90", &["--only", "history, by name"]).must_fail("0 passed, 1 failed", &["replay: has ended"]);
    side("double:90", &["--only", "history, by name"]).must_fail("0 passed, 1 failed", &["input 91"]);
    side("unended", LIMITS).must_fail("0 passed, 1 failed", &["text (line end missing)"]);
}

#[test]
fn an_early_end_or_a_bad_status_is_caught() {
    side("stop:7", BY_NAME).must_fail("0 passed, 4 failed", &["input 7: ", "replay: has ended"]);
    side("stop:7", LIMITS).must_fail("0 passed, 1 failed", &["input 7: ", "replay: has ended"]);
    side("status", BY_NAME).must_fail("0 passed, 4 failed", &["exit status: 3"]);
}

#[test]
fn a_program_that_hangs_is_not_waited_for() {
    let start = Instant::now();
    let run = side("hang:7", &["--only", "text, limits", "--patience", "1"]);
    run.must_fail("0 passed, 1 failed", &["input 1: ", "replay: no answer in time"]);
    assert!(start.elapsed() < Duration::from_secs(60));
}

#[test]
fn a_program_that_cannot_be_started_fails_all() {
    let output = Command::new(env!("CARGO_BIN_EXE_side"))
        .args(["--replay", "no/such/replay", "--all-calls", "--only", "by name"])
        .output()
        .expect("the comparison starts");
    let run = Run::new(output);
    run.must_fail("0 passed, 4 failed", &[]);
    for shown in ["cannot start replay as ", "no/such/replay"] {
        assert!(run.errors.contains(shown), "{}", run.errors);
    }
}

#[test]
fn words_that_name_no_group_fail() {
    let run = side("", &["--only", "no such group"]);
    assert!(!run.passed && run.errors.contains("no such group"));
}

#[test]
fn minutes_go_on_with_fresh_seeds() {
    let start = Instant::now();
    side("", &["--only", "damaged", "--seed", "5"]).must_pass("1 passed, 0 failed");
    // Enough for a first round to end in time, on a busy machine too.
    let minutes = (start.elapsed().as_secs_f64() * 3.0 / 60.0).to_string();
    let run = side("", &["--only", "damaged", "--seed", "5", "--minutes", &minutes]);
    run.must_pass("1 passed, 0 failed");
    assert!(
        run.text.contains("seed 5,") && run.text.contains("seed 6,"),
        "{}",
        run.text
    );
}

/// Runs one group against a library with each of the mistakes, which it must notice.
fn must_notice(group: &str, mistakes: &[&str]) {
    for mistake in mistakes {
        let run = side(mistake, &["--first", "--only", group]);
        assert!(!run.passed, "{mistake} was not noticed by {group}");
        assert!(run.text.contains("script: "), "{mistake}: {}", run.text);
    }
}

#[test]
fn mistakes_are_noticed_by_texts_by_name() {
    must_notice(
        "text, by name",
        &[
            "scalar-refused",
            "empty-taken",
            "mark-skipped",
            "line-end-skipped",
            "last-comma-taken",
            "names-with-quote",
        ],
    );
}

#[test]
fn mistakes_are_noticed_by_generated_texts() {
    must_notice(
        "text, generated",
        &[
            "tail-ignored",
            "names-as-utf16",
            "depth-9",
            "solidus-escape-taken",
            "high-surrogate-taken",
        ],
    );
}

#[test]
fn mistakes_are_noticed_by_exhaustive_texts() {
    must_notice(
        "text, exhaustive",
        &[
            "minus-zero-taken",
            "leading-zero-taken",
            "plus-taken",
            "exponent-taken",
            "other-escape-taken",
            "control-31-taken",
            "zero-byte-taken",
            "delete-refused",
        ],
    );
}

#[test]
fn mistakes_are_noticed_by_pairs_of_names() {
    must_notice(
        "text, pairs of names",
        &[
            "names-with-escapes",
            "names-with-quote",
            "names-as-utf16",
            "names-by-length",
            "repeated-name-taken",
            "equal-empty-names-taken",
        ],
    );
}

#[test]
fn mistakes_are_noticed_by_utf8() {
    must_notice(
        "text, UTF-8",
        &[
            "overlong-2-taken",
            "overlong-3-taken",
            "overlong-4-taken",
            "high-surrogate-taken",
            "low-surrogate-taken",
            "beyond-10ffff-taken",
            "mark-refused-inside",
            "not-a-character-refused",
            "last-plane-refused",
        ],
    );
}

#[test]
fn mistakes_are_noticed_by_limits() {
    must_notice(
        "text, limits",
        &[
            "limit-32767",
            "limit-32769",
            "depth-7",
            "depth-9",
            "long-number-refused",
        ],
    );
}

#[test]
fn mistakes_are_noticed_by_dates_by_name() {
    must_notice(
        "dates, by name",
        &[
            "toward-zero",
            "32-bit-count",
            "year-0-refused",
            "last-day-refused",
            "1900-leap",
        ],
    );
}

#[test]
fn mistakes_are_noticed_by_every_day() {
    must_notice("dates, every day", &["century-leap"]);
}

#[test]
fn mistakes_are_noticed_by_every_field() {
    must_notice(
        "dates, every field",
        &[
            "second-60",
            "hour-24",
            "month-0",
            "day-0",
            "day-31-always",
            "any-separator",
            "colon-digit",
        ],
    );
}

#[test]
fn mistakes_are_noticed_by_damaged_dates() {
    must_notice(
        "dates, damaged",
        &["small-letters", "longer-date", "no-date-before-1970"],
    );
}

#[test]
fn a_wrong_answer_in_a_history_is_shown_with_where_the_history_began() {
    let run = side("wrong:2", &["--only", "history, by name", "--first"]);
    run.must_fail(
        "0 passed, 1 failed",
        &[
            "input 2 (since input 2): ",
            "script: install 7b",
            "stated: install 10\n",
        ],
    );
}

#[test]
fn mistakes_are_noticed_by_lines() {
    must_notice(
        "script, lines",
        &[
            "comments-not-counted",
            "comments-answered",
            "upper-case-argument-taken",
            "spaces-joined",
            "quoted-to-the-line-end",
            "odd-digit-left-out",
            "further-words-ignored",
            "error-silent",
            "error-without-reason",
        ],
    );
    must_notice(
        "script, arguments",
        &[
            "comments-not-counted",
            "number-wraps",
            "time-wraps",
            "clock-back-accepted",
            "clock-never-back",
            "further-words-ignored",
            "error-silent",
            "error-forgets-all",
        ],
    );
}

#[test]
fn mistakes_are_noticed_by_published_examples() {
    must_notice(
        "published examples",
        &[
            "snapshot-digest-unchecked",
            "same-timestamp-taken",
            "same-root-taken",
            "expired-a-second-late",
            "clock-never-back",
            "clock-back-accepted",
            "find-digest-unchecked",
            "compared-all",
            "compared-the-smaller",
            "compared-0-with-15",
            "key-gives-keyid",
            "look-from-1",
            "entry-from-1",
            "keyids-unchecked",
            "keyid-without-scheme",
            "digest-of-the-signed-part",
            "sha256-words-reversed",
        ],
    );
}

/// Runs the signed shelf where other programs are looked for in one folder alone.
fn signed_shelf(folder: &Path, manner: &str) -> Run {
    let output = Command::new(env!("CARGO_BIN_EXE_side"))
        .args(["--replay", env!("CARGO_BIN_EXE_stand-in"), "--only", "signed shelf"])
        .env("STAND_IN", manner)
        .env("PATH", folder)
        .output()
        .expect("the comparison starts");
    Run::new(output)
}

/// Where the python3 is that has the package.
fn python_with_cryptography() -> Option<String> {
    let script = "import cryptography.hazmat.primitives.asymmetric.ed25519, sys; print(sys.executable)";
    let output = Command::new("python3").args(["-c", script]).output().ok()?;
    let place = String::from_utf8(output.stdout).ok()?;
    output.status.success().then(|| place.trim().to_string())
}

#[test]
fn the_signed_shelf_says_who_signed() {
    let signer = side::shelf::signer::Signer::at_hand().name();
    let run = side("", &["--only", "signed shelf"]);
    run.must_pass("1 passed, 0 failed");
    assert!(run.text.contains(&format!(" s: {signer}: ")), "{}", run.text);
}

#[test]
fn the_signed_shelf_needs_no_signer() {
    let folder = Path::new(env!("CARGO_TARGET_TMPDIR")).join("no-programs");
    fs::create_dir_all(&folder).unwrap();
    let run = signed_shelf(&folder, "");
    run.must_pass("1 passed, 0 failed");
    assert!(run.text.contains("verdicts given"), "{}", run.text);
}

#[test]
fn without_openssl_the_signed_shelf_asks_python() {
    let folder = Path::new(env!("CARGO_TARGET_TMPDIR")).join("only-python");
    let _ = fs::remove_dir_all(&folder);
    fs::create_dir_all(&folder).unwrap();
    let mut expected = "verdicts given";
    if let Some(python) = python_with_cryptography() {
        expected = "Ed25519 by python3's cryptography";
        let program = folder.join("python3");
        fs::write(&program, format!("#!/bin/sh\nexec '{python}' \"$@\"\n")).unwrap();
        fs::set_permissions(&program, fs::Permissions::from_mode(0o755)).unwrap();
    }
    let run = signed_shelf(&folder, "");
    run.must_pass("1 passed, 0 failed");
    assert!(run.text.contains(expected), "{}", run.text);
}

#[test]
fn mistakes_are_noticed_by_the_signed_shelf() {
    // The verdicts are the same whoever signs.
    let folder = Path::new(env!("CARGO_TARGET_TMPDIR")).join("no-programs");
    for mistake in [
        "old-role-keys-count",
        "old-keys-kept",
        "first-roles-believed",
        "one-row",
        "own-row-only",
        "rows-swapped",
        "signatures-counted",
        "threshold-ignored",
        "any-root-key-signs",
        "9-before-8",
        "rotation-missed",
        "threshold-is-no-rotation",
        "targets-threshold-is-no-rotation",
        "lowered-threshold-is-no-rotation",
        "look-from-1",
        "entry-from-1",
        "key-gives-keyid",
        "find-with-escapes",
        "compared-all",
        "compared-the-smaller",
        "compared-0-with-15",
        "keyids-unchecked",
        "keyids-of-named-keys-only",
        "digest-of-the-signed-part",
        "signed-part-found-in",
    ] {
        let run = signed_shelf(&folder, mistake);
        assert!(!run.passed, "{mistake} was not noticed");
        run.must_fail("0 passed, 1 failed", &["script: ", "stated: "]);
    }
}

#[test]
fn mistakes_are_noticed_by_looks() {
    must_notice(
        "look and entry, by name",
        &[
            "look-first-signed",
            "look-from-1",
            "look-to-the-end",
            "look-signatures",
            "look-asks-for-a-role",
            "look-refused-gives-all",
            "entry-from-1",
            "entry-place-32-bit",
            "entry-refused-gives-the-last",
            "17-entries-taken",
        ],
    );
    must_notice(
        "look and entry, generated",
        &[
            "look-first-signed",
            "look-to-the-end",
            "entry-from-1",
            "entry-place-32-bit",
            "entry-place-first",
            "unknown-envelope-member-refused",
            "upper-case-hex-taken",
            "15-entries",
            "17-entries-taken",
            "signed-array-taken",
        ],
    );
}

#[test]
fn mistakes_are_noticed_by_keys() {
    must_notice(
        "keys",
        &[
            "key-in-any-case",
            "key-first-64",
            "key-trimmed",
            "key-blank-15",
            "key-form-before-held",
            "key-gives-keyid",
            "old-keys-kept",
            "first-roles-believed",
        ],
    );
}

#[test]
fn mistakes_are_noticed_by_images() {
    must_notice(
        "images",
        &[
            "image-length-unchecked",
            "image-length-32-bit",
            "image-up-to-length",
            "image-digest-unchecked",
            "image-31-bytes",
            "image-longer-digests",
            "image-found-unjudged",
            "image-8-before-5",
        ],
    );
}

#[test]
fn mistakes_are_noticed_by_digests() {
    must_notice(
        "sha256, published",
        &[
            "sha256-padding-in-one-block",
            "sha256-padding-after-a-full-block",
            "sha256-length-in-16-bits",
            "sha256-first-blocks",
            "sha256-of-a-file",
            "sha256-to-zero-byte",
            "sha256-in-upper-case",
            "sha256-words-reversed",
        ],
    );
    must_notice(
        "sha256, lengths",
        &[
            "sha256-padding-in-one-block",
            "sha256-padding-after-a-full-block",
            "sha256-length-in-16-bits",
            "sha256-first-blocks",
            "sha256-of-a-file",
            "sha256-to-zero-byte",
        ],
    );
}

#[test]
fn mistakes_are_noticed_by_keyids() {
    must_notice(
        "keyids",
        &[
            "keyids-unchecked",
            "keyids-of-named-keys-only",
            "16-after-4",
            "16-after-5",
            "16-before-3",
            "upper-case-keyid-16",
            "keyid-without-unknown-members",
            "keyid-without-scheme",
            "keyid-of-the-public-value",
            "keyid-60-digits",
            "first-keyid-checked",
            "last-keyid-checked",
        ],
    );
}

#[test]
fn mistakes_are_noticed_by_searches() {
    must_notice(
        "search, every place",
        &[
            "compared-all",
            "compared-the-smaller",
            "compared-one-more-always",
            "compared-without-the-equal",
            "compared-past-the-equal",
            "compared-if-refused-1",
            "compared-if-refused-2",
            "compared-if-refused-3",
            "compared-if-refused-4",
            "compared-if-refused-6",
            "compared-if-refused-7",
            "compared-if-refused-8",
            "compared-0-with-15",
            "compared-all-with-15",
            "compared-0-for-no-path",
            "compared-0-for-long-paths",
            "compared-all-for-long-paths",
            "compared-128-bytes",
            "compared-8-bit",
            "compared-from-the-end",
            "compared-by-halves",
            "compared-with-escapes",
            "compared-names-with-escapes",
            "compared-names-with-quote",
            "compared-signed-bytes",
            "compared-as-utf16",
            "compared-by-length",
            "compared-longer-first",
            "later-forms-unread",
            "later-order-unread",
        ],
    );
    must_notice(
        "search, generated",
        &[
            "compared-all",
            "compared-the-smaller",
            "compared-one-more-always",
            "compared-without-the-equal",
            "compared-past-the-equal",
            "compared-0-with-15",
            "compared-all-with-15",
            "compared-0-for-no-path",
            "compared-0-for-long-paths",
            "compared-all-for-long-paths",
            "compared-with-escapes",
            "compared-names-with-escapes",
            "compared-names-with-quote",
            "compared-signed-bytes",
            "compared-as-utf16",
            "compared-by-length",
            "compared-longer-first",
        ],
    );
}

#[test]
fn mistakes_are_noticed_by_forms_of_roots() {
    must_notice(
        "forms, root",
        &[
            "unknown-member-refused",
            "unknown-envelope-member-refused",
            "unknown-role-refused",
            "keyids-in-order",
            "upper-case-hex-taken",
            "type-unchecked",
            "spec-version-unchecked",
            "consistent-snapshot-missing-taken",
            "consistent-snapshot-any",
            "keytype-unchecked",
            "scheme-unchecked",
            "keyid-twice-taken",
            "stray-keyid-taken",
            "threshold-0-taken",
            "threshold-above-taken",
            "keyids-unchecked",
            "16-before-3",
            "keyid-without-unknown-members",
        ],
    );
}

#[test]
fn mistakes_are_noticed_by_forms_of_timestamps() {
    must_notice(
        "forms, timestamp",
        &[
            "unknown-member-refused",
            "unknown-envelope-member-refused",
            "sig-unchecked",
            "upper-case-hex-taken",
            "type-unchecked",
            "version-0-taken",
            "version-wraps-at-64-bits",
            "version-without-end",
            "expires-unchecked",
            "spec-version-unchecked",
            "further-meta-taken",
            "other-hash-refused",
            "hashes-without-sha256-taken",
            "length-33-bit-taken",
            "null-length-taken",
        ],
    );
}

#[test]
fn mistakes_are_noticed_by_forms_of_snapshots() {
    must_notice(
        "forms, snapshot",
        &[
            "type-unchecked",
            "version-0-taken",
            "spec-version-with-dots",
            "targets-json-missing-taken",
            "empty-name-taken",
            "other-hash-refused",
            "hashes-without-sha256-taken",
            "length-33-bit-taken",
            "null-length-taken",
        ],
    );
}

#[test]
fn mistakes_are_noticed_by_forms_of_targets() {
    must_notice(
        "forms, targets",
        &[
            "type-unchecked",
            "version-0-taken",
            "spec-version-by-first-digit",
            "no-targets-refused",
            "empty-path-taken",
            "hashes-missing-taken",
            "hashes-without-sha256-taken",
            "length-33-bit-taken",
        ],
    );
}

#[test]
fn mistakes_are_noticed_by_limits_of_forms() {
    must_notice(
        "forms, limits",
        &[
            "name-bytes-with-escapes",
            "path-bytes-with-escapes",
            "255-targets",
            "15-entries",
            "17-entries-taken",
            "17-keys-taken",
            "33-names-taken",
            "257-targets-taken",
            "name-33-taken",
            "empty-name-taken",
            "path-129-taken",
            "empty-path-taken",
            "length-33-bit-taken",
            "keyid-twice-taken",
            "same-public-taken",
            "4-before-3",
            "spec-version-by-first-digit",
            "version-0-taken",
            "version-wraps-at-64-bits",
            "version-without-end",
            "own-versions-end-at-2147483647",
            "listed-versions-end-at-2147483647",
            "own-versions-end-one-early",
            "listed-versions-end-one-early",
            "own-versions-end-one-late",
            "listed-versions-end-one-late",
            "listed-lengths-follow-versions",
            "image-lengths-follow-versions",
        ],
    );
}

#[test]
fn mistakes_are_noticed_by_histories_by_name() {
    must_notice(
        "history, by name",
        &[
            "signatures-counted",
            "one-row",
            "own-row-only",
            "roots-skipped",
            "expired-root-refused",
            "expired-install-refused",
            "14-before-9",
            "9-before-8",
            "same-root-taken",
            "same-timestamp-taken",
            "same-timestamp-11",
            "listed-snapshot-must-rise",
            "vanished-name-taken",
            "lowered-name-taken",
            "only-targets-json-compared",
            "first-names-compared",
            "expired-a-second-late",
            "root-expiry-forgotten",
            "timestamp-expiry-forgotten",
            "snapshot-expiry-forgotten",
            "targets-expiry-forgotten",
            "time-unsigned",
            "time-32-bit",
            "stale-snapshot-leaned-on",
            "stale-targets-found",
            "find-with-escapes",
            "find-in-any-case",
            "find-to-zero-byte",
            "find-31-bit",
            "compared-all",
            "compared-the-smaller",
            "compared-without-the-equal",
            "compared-if-refused-8",
            "compared-0-with-15",
            "compared-0-for-long-paths",
            "find-digest-unchecked",
            "rotation-missed",
            "snapshot-rotation-missed",
            "rotation-keeps-targets",
            "targets-rotation-missed",
            "targets-rotation-drops-all",
            "root-rotation-drops-all",
            "root-threshold-drops-all",
            "threshold-is-no-rotation",
            "snapshot-threshold-is-no-rotation",
            "targets-threshold-is-no-rotation",
            "targets-threshold-drops-all",
            "lowered-threshold-is-no-rotation",
            "added-key-is-no-rotation",
            "removed-key-is-no-rotation",
            "keyids-unchecked",
            "digest-of-the-signed-part",
            "signed-part-found-in",
            "refused-install-keeps-state",
            "refused-install-keeps-time",
            "install-keeps-records",
            "short-row-filled",
            "long-row-cut",
            "verdicts-above-1-taken",
            "state-hides-targets",
            "own-versions-end-at-2147483647",
            "listed-versions-end-at-2147483647",
            "own-versions-end-one-early",
            "own-versions-end-one-late",
            "listed-versions-end-one-late",
            "own-versions-read-in-32-bits",
            "listed-versions-read-as-f32",
            "own-versions-kept-in-32-bits",
            "listed-versions-kept-in-32-bits",
            "versions-said-in-32-bits",
            "roots-compared-in-32-bits",
            "timestamps-compared-as-f32",
            "listed-snapshots-compared-as-f32",
            "snapshots-compared-as-f32",
            "names-compared-as-f32",
            "targets-compared-as-f32",
        ],
    );
}

#[test]
fn mistakes_are_noticed_by_rotation() {
    must_notice(
        "rotation",
        &[
            "rotation-missed",
            "snapshot-rotation-missed",
            "rotation-keeps-targets",
            "rotation-keeps-snapshot",
            "targets-rotation-missed",
            "targets-rotation-drops-all",
            "root-rotation-drops-all",
            "root-threshold-drops-all",
            "threshold-is-no-rotation",
            "snapshot-threshold-is-no-rotation",
            "targets-threshold-is-no-rotation",
            "targets-threshold-drops-all",
            "lowered-threshold-is-no-rotation",
            "added-key-is-no-rotation",
            "removed-key-is-no-rotation",
        ],
    );
}

/// Mistakes about the range of versions, about lengths that get it, and about what is read and kept of a version.
const MISREAD_VERSIONS: &[&str] = &[
    "versions-end-at-2147483647",
    "own-versions-end-at-2147483647",
    "listed-versions-end-at-2147483647",
    "versions-end-at-4294967295",
    "own-versions-end-one-early",
    "listed-versions-end-one-early",
    "own-versions-end-one-late",
    "listed-versions-end-one-late",
    "version-without-end",
    "listed-versions-without-end",
    "version-wraps-at-64-bits",
    "version-0-taken",
    "listed-versions-begin-at-0",
    "own-versions-without-sign",
    "listed-versions-without-sign",
    "own-versions-in-quotes",
    "listed-versions-in-quotes",
    "own-versions-read-in-32-bits",
    "listed-versions-read-in-32-bits",
    "own-versions-read-as-f32",
    "listed-versions-read-as-f32",
    "own-versions-kept-in-32-bits",
    "listed-versions-kept-in-32-bits",
    "versions-said-in-32-bits",
    "listed-lengths-follow-versions",
    "image-lengths-follow-versions",
];

/// Every comparison of versions, made in every way that loses something.
fn miscompared_versions() -> Vec<String> {
    let comparisons = [
        "roots",
        "timestamps",
        "listed-snapshots",
        "snapshots",
        "names",
        "targets",
        "current-snapshots",
        "current-targets",
    ];
    let ways = ["in-32-bits", "as-i32", "up-to-32-bits", "as-f32"];
    let mistakes = comparisons.map(|what| ways.map(|how| format!("{what}-compared-{how}")));
    mistakes.into_iter().flatten().collect()
}

#[test]
fn mistakes_are_noticed_by_versions() {
    must_notice("versions", MISREAD_VERSIONS);
}

#[test]
fn wrong_comparisons_are_noticed_by_versions() {
    let mistakes = miscompared_versions();
    must_notice("versions", &mistakes.iter().map(String::as_str).collect::<Vec<_>>());
}

/// Mistakes about the start time, all that cycles and installs show.
const CLOCK: &[&str] = &[
    "clock-never-back",
    "clock-back-accepted",
    "clock-back-by-a-second-accepted",
    "clock-back-by-a-day-accepted",
    "clock-equal-refused",
    "clock-refused-with-5",
    "clock-refused-with-7",
    "clock-refused-with-11",
    "clock-refused-with-14",
    "clock-refused-sets-it",
    "clock-refused-sets-it-unsaid",
    "clock-refused-drops-timestamp",
    "clock-refused-drops-snapshot",
    "clock-refused-drops-targets",
    "clock-refused-is-blank",
    "clock-raised-by-refused",
    "clock-lowered-by-refused",
    "clock-compared-as-u64",
    "clock-compared-as-i32",
    "clock-compared-as-u32",
    "clock-compared-up-to-32-bits",
    "clock-compared-as-f32",
    "clock-compared-as-f64",
    "clock-kept-by-install",
    "clock-kept-by-refused-install",
    "clock-kept-of-install-alone",
    "clock-not-kept-of-install",
    "clock-back-accepted-unless-expired",
    "clock-free-when-blank",
    "clock-from-0-when-blank",
    "clock-reset-by-root",
    "clock-reset-by-timestamp",
];

/// Mistakes about the start time that show after certain other calls, or where two times are very far apart.
const CLOCK_AMONG_OTHER_CALLS: &[&str] = &[
    "clock-compared-by-difference",
    "clock-reset-by-rotation",
    "clock-reset-by-snapshot",
    "clock-reset-by-targets",
    "clock-reset-by-find",
    "clock-reset-by-key",
    "clock-reset-by-state",
    "clock-reset-by-refused-root",
    "clock-reset-by-refused-timestamp",
    "clock-reset-by-refused-snapshot",
    "clock-reset-by-refused-targets",
    "clock-reset-by-refused-find",
    "clock-raised-by-root",
    "clock-raised-by-timestamp",
];

/// The stand-in keeps the latest start time apart for these mistakes. Without one of them it answers well.
#[test]
fn a_latest_start_time_kept_apart_passes() {
    for group in ["clock", "history, by name", "histories"] {
        side("clock-kept-well", &["--only", group]).must_pass("1 passed, 0 failed");
    }
}

#[test]
fn mistakes_are_noticed_by_the_clock() {
    must_notice("clock", CLOCK);
    must_notice("clock", CLOCK_AMONG_OTHER_CALLS);
    must_notice(
        "clock",
        &[
            "time-unsigned",
            "time-32-bit",
            "expired-a-second-late",
            "root-sets-time",
            "refused-install-keeps-state",
            "refused-install-keeps-time",
            "cycle-drops-targets",
        ],
    );
}

#[test]
fn mistakes_about_the_clock_are_noticed_by_histories() {
    must_notice("histories", CLOCK);
    must_notice("histories", CLOCK_AMONG_OTHER_CALLS);
}

#[test]
fn mistakes_about_the_clock_are_noticed_by_histories_by_name() {
    must_notice("history, by name", CLOCK);
}

#[test]
fn mistakes_about_the_range_of_versions_are_noticed_by_histories() {
    must_notice(
        "histories",
        &[
            "own-versions-end-at-2147483647",
            "listed-versions-end-at-2147483647",
            "own-versions-end-one-early",
            "listed-versions-end-one-early",
            "own-versions-end-one-late",
            "listed-versions-end-one-late",
            "own-versions-kept-in-32-bits",
            "listed-versions-kept-in-32-bits",
            "listed-lengths-follow-versions",
            "image-lengths-follow-versions",
        ],
    );
}

#[test]
fn wrong_comparisons_of_versions_are_noticed_by_histories() {
    must_notice(
        "histories",
        &[
            "roots-compared-in-32-bits",
            "roots-compared-as-f32",
            "timestamps-compared-in-32-bits",
            "timestamps-compared-as-f32",
            "listed-snapshots-compared-in-32-bits",
            "snapshots-compared-in-32-bits",
            "snapshots-compared-as-f32",
            "names-compared-in-32-bits",
            "names-compared-as-f32",
            "targets-compared-in-32-bits",
            "targets-compared-as-f32",
            "current-snapshots-compared-in-32-bits",
            "current-targets-compared-as-f32",
        ],
    );
}

#[test]
fn mistakes_about_keys_are_noticed_by_histories() {
    must_notice(
        "histories",
        &[
            "signatures-counted",
            "threshold-ignored",
            "any-root-key-signs",
            "sixteenth-key-ignored",
            "first-entry-decides",
            "last-entry-decides",
            "one-row",
            "own-row-only",
            "rows-swapped",
            "verdicts-above-1-taken",
            "short-row-filled",
            "long-row-cut",
            "10-before-9",
            "11-before-9",
            "9-before-8",
            "key-in-any-case",
            "key-first-64",
            "old-keys-kept",
        ],
    );
}

#[test]
fn mistakes_about_roots_are_noticed_by_histories() {
    must_notice(
        "histories",
        &[
            "roots-skipped",
            "same-root-taken",
            "expired-root-refused",
            "expired-install-refused",
            "refused-install-keeps-state",
            "refused-install-keeps-time",
            "refused-root-drops",
            "install-keeps-records",
            "root-sets-time",
            "rotation-missed",
            "snapshot-rotation-missed",
            "rotation-keeps-targets",
            "rotation-keeps-snapshot",
            "targets-rotation-missed",
            "targets-rotation-drops-all",
            "root-rotation-drops-all",
            "root-threshold-drops-all",
            "threshold-is-no-rotation",
            "snapshot-threshold-is-no-rotation",
            "targets-threshold-is-no-rotation",
            "targets-threshold-drops-all",
            "lowered-threshold-is-no-rotation",
            "added-key-is-no-rotation",
            "removed-key-is-no-rotation",
            "first-roles-believed",
            "keyids-unchecked",
            "keyids-of-named-keys-only",
            "16-after-4",
            "16-after-5",
            "16-before-3",
            "keyid-without-unknown-members",
        ],
    );
}

#[test]
fn mistakes_about_versions_and_listings_are_noticed_by_histories() {
    must_notice(
        "histories",
        &[
            "all-refused",
            "refused-timestamp-held",
            "same-timestamp-taken",
            "same-timestamp-11",
            "lower-timestamp-taken",
            "lower-snapshot-listed",
            "listed-snapshot-must-rise",
            "13-before-11",
            "14-before-9",
            "higher-snapshot-taken",
            "held-snapshot-forgotten",
            "vanished-name-taken",
            "vanished-prefix-taken",
            "lowered-name-taken",
            "only-targets-json-compared",
            "first-names-compared",
            "lowest-names-kept",
            "snapshot-length-unchecked",
            "snapshot-length-16-bit",
            "snapshot-digest-unchecked",
            "digest-31-bytes",
            "digest-of-the-signed-part",
            "digest-must-be-listed",
            "targets-length-unchecked",
            "targets-digest-unchecked",
            "targets-version-unchecked",
            "targets-must-rise",
        ],
    );
}

#[test]
fn mistakes_about_times_and_what_is_current_are_noticed_by_histories() {
    must_notice(
        "histories",
        &[
            "time-unsigned",
            "time-32-bit",
            "expired-a-second-late",
            "root-expiry-forgotten",
            "timestamp-expiry-forgotten",
            "snapshot-expiry-forgotten",
            "targets-expiry-forgotten",
            "stale-snapshot-leaned-on",
            "stale-targets-found",
            "timestamp-drops-snapshot",
            "snapshot-drops-targets",
            "cycle-drops-targets",
            "first-digest-kept",
            "state-hides-targets",
            "find-digest-unchecked",
            "signed-part-found-in",
            "find-with-escapes",
            "find-first-128",
            "find-in-any-case",
            "find-to-zero-byte",
            "find-path-first",
            "find-127",
            "find-31-bit",
            "compared-all",
            "compared-the-smaller",
            "compared-without-the-equal",
            "compared-if-refused-8",
            "compared-0-with-15",
            "compared-0-for-long-paths",
        ],
    );
}
