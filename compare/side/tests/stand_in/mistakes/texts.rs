//! Mistakes about texts and dates.

use paper::json::Value;
use paper::script::{Call, Script};
use paper::{date, file};

/// The answer of a library with this mistake; `None` where the mistake plays no part.
pub fn answer(mistake: &str, call: &Call) -> Option<String> {
    match call {
        Call::Text(bytes) if refuses_text(mistake, bytes) => Some("text 2".to_string()),
        Call::Text(bytes) => text_taken_for(mistake, bytes).map(|other| answer_to(Call::Text(other))),
        Call::Date(bytes) => date_answer(mistake, bytes),
        _ => None,
    }
}

fn answer_to(call: Call) -> String {
    Script::default().call(&call)
}

/// Mistakes that refuse a sound text.
fn refuses_text(mistake: &str, bytes: &[u8]) -> bool {
    match mistake {
        "limit-32767" => bytes.len() == 32_768,
        "delete-refused" => bytes.contains(&0x7f),
        "scalar-refused" => !bytes.starts_with(b"[") && !bytes.starts_with(b"{"),
        "mark-refused-inside" => bytes.windows(3).any(|window| window == b"\xef\xbb\xbf"),
        "not-a-character-refused" => bytes.windows(3).any(|window| window == b"\xef\xbf\xbf"),
        "last-plane-refused" => bytes.contains(&0xf4),
        "long-number-refused" => longest_number(bytes) > 20,
        "names-with-escapes" => breaks_order(bytes, |name| escaped(name).into_bytes()),
        "names-with-quote" => breaks_order(bytes, |name| [name.as_bytes(), b"\""].concat()),
        "names-as-utf16" => breaks_order(bytes, |name| name.encode_utf16().flat_map(u16::to_be_bytes).collect()),
        "names-by-length" => breaks_order(bytes, |name| [&[name.len() as u8], name.as_bytes()].concat()),
        "depth-7" => file::read(bytes).is_ok_and(|value| depth(&value) == 8),
        _ => false,
    }
}

/// Mistakes that take a broken text for another one, which is sound.
fn text_taken_for(mistake: &str, bytes: &[u8]) -> Option<Vec<u8>> {
    let other = match mistake {
        "limit-32769" => (bytes.len() == 32_769).then(|| b"0".to_vec()),
        "empty-taken" => bytes.is_empty().then(|| b"0".to_vec()),
        "mark-skipped" => bytes.strip_prefix(b"\xef\xbb\xbf").map(<[u8]>::to_vec),
        "line-end-skipped" => bytes.strip_suffix(b"\n").map(<[u8]>::to_vec),
        "tail-ignored" => bytes
            .strip_suffix(b"null")
            .map(<[u8]>::to_vec)
            .filter(|rest| !rest.is_empty()),
        "minus-zero-taken" => replaced(bytes, b"-0", b"-1"),
        "leading-zero-taken" => replaced(bytes, b"[01", b"[1"),
        "plus-taken" => replaced(bytes, b"+", b""),
        "exponent-taken" => replaced(bytes, b"1e", b"1"),
        "last-comma-taken" => replaced(bytes, b",]", b"]"),
        "solidus-escape-taken" => replaced(bytes, b"\\/", b"/"),
        "other-escape-taken" => replaced(bytes, b"\\n", b"n"),
        "control-31-taken" => replaced(bytes, b"\x1f", b"x"),
        "zero-byte-taken" => replaced(bytes, b"\x00", b"x"),
        "overlong-2-taken" => replaced(bytes, b"\xc1\xbf", b"x"),
        "overlong-3-taken" => replaced(bytes, b"\xe0\x9f\xbf", b"x"),
        "overlong-4-taken" => replaced(bytes, b"\xf0\x8f\xbf\xbf", b"x"),
        "high-surrogate-taken" => replaced(bytes, b"\xed\xa0\x80", b"x"),
        "low-surrogate-taken" => replaced(bytes, b"\xed\xbf\xbf", b"x"),
        "beyond-10ffff-taken" => replaced(bytes, b"\xf4\x90\x80\x80", b"x"),
        "depth-9" => bytes
            .strip_prefix(b"[")
            .and_then(|rest| rest.strip_suffix(b"]"))
            .map(<[u8]>::to_vec),
        "repeated-name-taken" => replaced(bytes, b"{\"a\":0,\"a\":0}", b"{\"a\":0}"),
        "equal-empty-names-taken" => replaced(bytes, b"{\"\":0,\"\":0}", b"{}"),
        _ => None,
    };
    other.filter(|other| file::read(other).is_ok())
}

fn date_answer(mistake: &str, bytes: &[u8]) -> Option<String> {
    let seconds = date::seconds(bytes);
    let year = || String::from_utf8_lossy(&bytes[..4]).parse::<i64>().ok();
    match mistake {
        "toward-zero" => seconds
            .filter(|seconds| *seconds < 0)
            .map(|seconds| said(seconds / 86_400 * 86_400)),
        "no-date-before-1970" => seconds.filter(|seconds| *seconds < 0).map(|_| "date bad".to_string()),
        "32-bit-count" => seconds
            .filter(|seconds| i32::try_from(*seconds).is_err())
            .map(|_| "date bad".to_string()),
        "year-0-refused" => seconds.filter(|_| year() == Some(0)).map(|_| "date bad".to_string()),
        "last-day-refused" => bytes.starts_with(b"9999-12-31").then(|| "date bad".to_string()),
        "1900-leap" => bytes.starts_with(b"1900-02-29").then(|| said(-2_203_891_200)),
        "century-leap" => seconds
            .filter(|_| year() == Some(2100))
            .map(|seconds| said(seconds + 86_400)),
        _ => {
            let other = date_taken_for(mistake, bytes)?;
            date::seconds(&other).map(said)
        }
    }
}

fn said(seconds: i64) -> String {
    format!("date {seconds}")
}

/// Mistakes that take a broken date for another one, which is sound.
fn date_taken_for(mistake: &str, bytes: &[u8]) -> Option<Vec<u8>> {
    match mistake {
        "second-60" => replaced(bytes, b":60Z", b":59Z"),
        "hour-24" => replaced(bytes, b"T24:", b"T00:"),
        "month-0" => replaced(bytes, b"-00-", b"-01-"),
        "day-0" => replaced(bytes, b"-00T", b"-01T"),
        "day-31-always" => replaced(bytes, b"-31T", b"-30T"),
        "small-letters" => Some(bytes.to_ascii_uppercase()),
        "longer-date" => bytes.get(..20).map(<[u8]>::to_vec),
        "any-separator" => bytes.get(8..).map(|rest| [&bytes[..7], b"-", rest].concat()),
        "colon-digit" => replaced(bytes, b":Z", b"9Z"),
        _ => None,
    }
}

/// The bytes with the first occurrence of a piece replaced; `None` if there is none.
fn replaced(bytes: &[u8], old: &[u8], new: &[u8]) -> Option<Vec<u8>> {
    let place = bytes.windows(old.len()).position(|window| window == old)?;
    Some([&bytes[..place], new, &bytes[place + old.len()..]].concat())
}

fn longest_number(bytes: &[u8]) -> usize {
    let numbers = bytes.split(|byte| !byte.is_ascii_digit());
    numbers.map(<[u8]>::len).max().unwrap_or(0)
}

fn escaped(name: &str) -> String {
    name.replace('\\', "\\\\").replace('"', "\\\"")
}

/// Whether the names of a sound text do not rise if they are compared by this key.
fn breaks_order(bytes: &[u8], key: fn(&str) -> Vec<u8>) -> bool {
    file::read(bytes).is_ok_and(|value| value_breaks_order(&value, key))
}

fn value_breaks_order(value: &Value, key: fn(&str) -> Vec<u8>) -> bool {
    match value {
        Value::Array(items) => items.iter().any(|item| value_breaks_order(item, key)),
        Value::Object(members) => {
            let keys: Vec<Vec<u8>> = members.keys().map(|name| key(name)).collect();
            !keys.is_sorted() || members.values().any(|value| value_breaks_order(value, key))
        }
        _ => false,
    }
}

fn depth(value: &Value) -> usize {
    match value {
        Value::Array(items) => 1 + items.iter().map(depth).max().unwrap_or(0),
        Value::Object(members) => 1 + members.values().map(depth).max().unwrap_or(0),
        _ => 0,
    }
}
