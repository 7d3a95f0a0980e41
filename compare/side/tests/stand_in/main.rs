//! Stands in for replay in the tests of the comparison. It answers with paper's own answers, and so shows nothing about
//! replay. The variable STAND_IN makes it misbehave: as a program (`wrong:7`: a wrong answer to line 7) or as a library
//! (`second-60`: a known mistake, see `mistakes`).

mod mistakes;

use std::io::{BufRead, BufWriter, Write, stdin, stdout};
use std::process::exit;
use std::thread::sleep;
use std::time::Duration;

use paper::script::{Call, Script};

/// How to misbehave, and at which line.
struct Manner {
    name: String,
    line: usize,
}

impl Manner {
    fn from_environment() -> Manner {
        let manner = std::env::var("STAND_IN").unwrap_or_default();
        let (name, line) = manner.split_once(':').unwrap_or((&manner, "0"));
        Manner {
            name: name.to_string(),
            line: line.parse().expect("a line number"),
        }
    }

    fn is_due(&self, name: &str, line: usize) -> bool {
        self.name == name && self.line == line
    }
}

fn main() {
    let manner = Manner::from_environment();
    if manner.name == "late" {
        return answer_late();
    }
    let mut script = Script::default();
    let mut output = BufWriter::new(stdout().lock());
    for (number, line) in (1..).zip(stdin().lock().split(b'\n')) {
        let Some(answer) = answer(&mut script, &line.expect("a line"), &manner.name) else {
            continue;
        };
        match manner.name.as_str() {
            "prompt" => output.flush().expect("an open pipe"),
            _ if manner.is_due("stop", number) => break,
            _ if manner.is_due("hang", number) => sleep(Duration::from_secs(600)),
            _ if manner.is_due("silent", number) => continue,
            _ if manner.is_due("double", number) => say(&mut output, &answer),
            _ if manner.is_due("wrong", number) => {
                say(&mut output, &wrong(&answer));
                continue;
            }
            _ => {}
        }
        say(&mut output, &answer);
    }
    if manner.name == "unended" {
        output.write_all(b"text").expect("an open pipe");
    }
    output.flush().expect("an open pipe");
    if manner.name == "status" {
        exit(3);
    }
}

/// Writes nothing before it has read everything.
fn answer_late() {
    let lines: Vec<Vec<u8>> = stdin().lock().split(b'\n').map(|line| line.expect("a line")).collect();
    let mut script = Script::default();
    let answers = lines.iter().filter_map(|line| answer(&mut script, line, ""));
    let answers: Vec<String> = answers.map(|answer| answer + "\n").collect();
    stdout().write_all(answers.concat().as_bytes()).expect("an open pipe");
}

fn say(output: &mut impl Write, answer: &str) {
    writeln!(output, "{answer}").expect("an open pipe");
}

/// Another answer that could have been given.
fn wrong(answer: &str) -> String {
    match answer {
        "text 0" => "text 2".to_string(),
        "date bad" => "date 0".to_string(),
        _ if answer.starts_with("text") => "text 0".to_string(),
        _ if answer.starts_with("date") => "date bad".to_string(),
        _ => match answer.rfind(|byte: char| byte.is_ascii_digit()) {
            Some(place) if &answer[place..=place] == "0" => format!("{}1{}", &answer[..place], &answer[place + 1..]),
            Some(place) => format!("{}0{}", &answer[..place], &answer[place + 1..]),
            None => format!("{answer} 0"),
        },
    }
}

fn answer(script: &mut Script, line: &[u8], mistake: &str) -> Option<String> {
    let line = &mistakes::line(mistake, line)?;
    match Call::read(line) {
        Ok(call) => Some(mistakes::answer(mistake, script, &call).unwrap_or_else(|| script.call(&call))),
        Err(_) => mistakes::error(mistake, script, line),
    }
}
