//! Mistakes about the lines of a script.

use paper::script::Script;

/// The line that a program with this mistake sees; `None` if it sees none.
pub fn line(mistake: &str, line: &[u8]) -> Option<Vec<u8>> {
    let is_passed_over = line.is_empty() || line.starts_with(b"#");
    let text = String::from_utf8_lossy(line);
    match mistake {
        "comments-not-counted" if is_passed_over => None,
        "comments-answered" if line.starts_with(b"#") => Some(b"comment".to_vec()),
        "upper-case-argument-taken" => Some(line.to_ascii_lowercase()),
        "spaces-joined" => Some(
            text.split(' ')
                .filter(|word| !word.is_empty())
                .collect::<Vec<_>>()
                .join(" ")
                .into(),
        ),
        "quoted-to-the-line-end" => match text.split_once(" '") {
            Some((start, rest)) if !is_passed_over => {
                Some([start, " ", &paper::hex::written(rest.as_bytes())].concat().into())
            }
            _ => Some(line.to_vec()),
        },
        "odd-digit-left-out" if line.len().is_multiple_of(2) && line.starts_with(b"text 3") => {
            Some(line[..line.len() - 1].to_vec())
        }
        "number-wraps" => Some(text.replace("18446744073709551616", "0").into()),
        "time-wraps" => Some(
            text.replace("cycle 9223372036854775808", "cycle -9223372036854775808")
                .into(),
        ),
        "further-words-ignored" => {
            let count = match text.split(' ').next() {
                Some("text" | "date" | "look" | "key" | "cycle") => 2,
                _ => usize::MAX,
            };
            Some(text.split(' ').take(count).collect::<Vec<_>>().join(" ").into())
        }
        _ => Some(line.to_vec()),
    }
}

/// What is written for a line that is no call.
pub fn error(mistake: &str, script: &mut Script, line: &[u8]) -> Option<String> {
    let answer = script.line(line)?;
    match mistake {
        "error-silent" => None,
        "error-without-reason" => Some(answer.split(' ').take(2).collect::<Vec<_>>().join(" ")),
        "error-forgets-all" => {
            script.state = paper::state::State::blank();
            Some(answer)
        }
        _ => Some(answer),
    }
}
