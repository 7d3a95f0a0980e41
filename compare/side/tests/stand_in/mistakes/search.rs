//! Mistakes about how many names find compares, and about images that it does not come to.

use std::cmp::Ordering;

use paper::forms;
use paper::script::{Call, Script};
use side::groups::names::escaped;

use super::with_file;

/// The answer of a library with this mistake; `None` where the mistake plays no part.
pub fn answer(mistake: &str, script: &mut Script, call: &Call) -> Option<String> {
    let Call::Find { file, path } = call else { return None };
    let is_one_of_these = mistake.starts_with("compared-") || mistake.starts_with("later-");
    is_one_of_these.then_some(())?;
    let answer = script.call(call);
    let said = Said::read(&answer)?;
    if let Some(file) = without_later_images(mistake, &said, file, path) {
        return Some(script.call(&with_file(call, file)));
    }
    let compared = compared(mistake, &said, file, path)?;
    Some(format!("{} {compared}", said.rest))
}

/// What find says.
struct Said<'a> {
    number: u8,
    /// The line without the number of names.
    rest: &'a str,
    compared: usize,
}

impl Said<'_> {
    fn read(answer: &str) -> Option<Said<'_>> {
        let (rest, compared) = answer.rsplit_once(' ')?;
        Some(Said {
            number: rest.split(' ').nth(1)?.parse().ok()?,
            rest,
            compared: compared.parse().ok()?,
        })
    }
}

/// Another number of names.
fn compared(mistake: &str, said: &Said, file: &[u8], path: &[u8]) -> Option<usize> {
    if let Some(number) = mistake.strip_prefix("compared-if-refused-") {
        return (said.number.to_string() == number).then_some(1);
    }
    if ![0, 15].contains(&said.number) {
        return None;
    }
    let names: Vec<String> = forms::targets(file).ok()?.says.targets.into_keys().collect();
    let smaller = |is_smaller: &dyn Fn(&str) -> bool| names.iter().filter(|name| is_smaller(name)).count();
    let truly_smaller = || smaller(&|name| name.as_bytes() < path);
    // As the search ends that compares so.
    let ended = |is_smaller: &dyn Fn(&str) -> bool| {
        let smaller = names.iter().take_while(|name| is_smaller(name)).count();
        Some(smaller + usize::from(smaller < names.len()))
    };
    let text = String::from_utf8_lossy(path);
    match mistake {
        "compared-all" => Some(names.len()),
        "compared-the-smaller" => Some(truly_smaller()),
        "compared-one-more-always" => Some(truly_smaller() + 1),
        "compared-without-the-equal" if said.number == 0 => Some(said.compared - 1),
        "compared-past-the-equal" if said.number == 0 => Some((said.compared + 1).min(names.len())),
        "compared-0-with-15" if said.number == 15 => Some(0),
        "compared-all-with-15" if said.number == 15 => Some(names.len()),
        "compared-0-for-no-path" if path.is_empty() => Some(0),
        "compared-0-for-long-paths" if path.len() > 128 => Some(0),
        "compared-all-for-long-paths" if path.len() > 128 => Some(names.len()),
        "compared-128-bytes" if path.len() > 128 => ended(&|name| name.as_bytes() < &path[..128]),
        "compared-8-bit" => Some(said.compared & 0xff),
        "compared-from-the-end" => Some(names.len() - truly_smaller()),
        "compared-by-halves" => Some(names.len().checked_ilog2().map_or(0, |steps| steps as usize + 1)),
        "compared-with-escapes" => ended(&|name| escaped(name) < escaped(&text)),
        "compared-names-with-escapes" => ended(&|name| escaped(name).as_bytes() < path),
        "compared-names-with-quote" => ended(&|name| [name.as_bytes(), b"\""].concat() < path.to_vec()),
        "compared-signed-bytes" => ended(&|name| signed(name.as_bytes()).cmp(signed(path)) == Ordering::Less),
        "compared-as-utf16" => ended(&|name| name.encode_utf16().lt(text.encode_utf16())),
        "compared-by-length" => ended(&|name| (name.len(), name.as_bytes()) < (path.len(), path)),
        "compared-longer-first" => ended(&|name| name.as_bytes() < path && !path.starts_with(name.as_bytes())),
        _ => None,
    }
}

fn signed(bytes: &[u8]) -> impl Iterator<Item = i8> {
    bytes.iter().map(|byte| byte.cast_signed())
}

/// The file as it is seen by a library that reads no further than to the path: without the images behind it. So it is neither
/// broken in its form nor out of order.
fn without_later_images(mistake: &str, said: &Said, file: &[u8], path: &[u8]) -> Option<Vec<u8>> {
    match (mistake, said.number) {
        ("later-order-unread", 2) | ("later-forms-unread", 3) => {}
        _ => return None,
    }
    let text = std::str::from_utf8(file).ok()?;
    let name = format!("\"{}\":{{\"hashes\"", escaped(std::str::from_utf8(path).ok()?));
    let image = text.find(&name)?;
    let length = image + text[image..].find("\"length\":")?;
    let end = length + text[length..].find('}')? + 1;
    let behind = text.rfind("},\"version\":")?;
    let seen = [text.get(..end)?, &text[behind..]].concat().into_bytes();
    forms::targets(&seen).is_ok().then_some(seen)
}
