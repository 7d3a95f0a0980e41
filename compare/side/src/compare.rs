//! Groups of inputs, and the comparison of replay's answers with paper's.

use std::collections::BTreeMap;
use std::fmt;
use std::io::Write;
use std::sync::mpsc::{Receiver, Sender, channel};
use std::thread;

use crate::calls::{ANSWERS, Call, Line, Player, is_listed, kind_of};
use crate::child::{Answer, Replay};
use crate::options::Options;

/// The script goes out in batches of about this many bytes.
const BATCH: usize = 1 << 16;

/// Of the wrong answers of one run this many are shown; the others are counted.
const SHOWN: usize = 10;

/// One input.
#[derive(Debug)]
pub struct Case {
    line: Line,
    stated: Option<String>,
    /// Paper's answer, if it was asked already when the input was made.
    paper: Option<String>,
    /// What the report says of the inputs.
    remark: Option<&'static str>,
}

impl Case {
    /// An input on which paper has the only word.
    pub fn open(line: impl Into<Line>) -> Case {
        Case {
            line: line.into(),
            stated: None,
            paper: None,
            remark: None,
        }
    }

    /// An input whose answer is known from elsewhere too: because document 01 states it, or by the way the input was
    /// made. Then paper and replay both have to give it. Where a step is only said to answer a number, the versions
    /// held need not be written.
    pub fn stated(line: impl Into<Line>, answer: impl Into<String>) -> Case {
        Case {
            stated: Some(answer.into()),
            ..Case::open(line)
        }
    }

    /// The input with paper's answer.
    pub fn answered(self, paper: String) -> Case {
        Case {
            paper: Some(paper),
            ..self
        }
    }

    /// Has the report say how the inputs were made.
    pub fn remark(&mut self, remark: &'static str) {
        self.remark = Some(remark);
    }

    /// The call, if it is one that is written in the plainest way.
    pub fn call(&self) -> Option<&Call> {
        match &self.line {
            Line::Call(call) => Some(call),
            Line::Raw(_) => None,
        }
    }

    /// Whether its answer is known from elsewhere.
    pub fn is_stated(&self) -> bool {
        self.stated.is_some()
    }

    /// The line of the script.
    pub fn line(&self) -> String {
        let mut line = Vec::new();
        self.line.write(&mut line);
        String::from_utf8_lossy(&line).into_owned()
    }
}

/// The inputs of a group, one after the other.
pub type Cases = Box<dyn Iterator<Item = Case> + Send>;

/// A named group of inputs; it counts as one test.
pub struct Group {
    /// The name in the report.
    pub name: &'static str,
    /// The calls in its script; it is compared only where all of them are.
    pub calls: &'static [&'static str],
    /// Makes the inputs from a seed.
    pub cases: fn(u64) -> Cases,
    /// Fewer inputs than this are a failure.
    pub least: usize,
    /// Kinds of answers, and the share in percent that each must have at least.
    pub shares: &'static [(&'static str, usize)],
    /// Calls of which every answer that document 01 lists must occur.
    pub complete: &'static [&'static str],
    /// Whether a fresh seed gives enough fresh inputs to run the group again.
    pub renewed: bool,
}

/// What one run of a group has shown.
#[derive(Debug, Default)]
pub struct Report {
    inputs: usize,
    kinds: BTreeMap<String, usize>,
    /// How the inputs were made, where that is not always the same.
    remarks: Vec<&'static str>,
    /// The input with which the present history began.
    begun: Option<usize>,
    failures: usize,
    shown: Vec<String>,
}

impl Report {
    /// Whether nothing failed.
    pub fn passed(&self) -> bool {
        self.failures == 0
    }

    /// The failures to be shown: of the wrong answers only the first ten.
    pub fn shown(&self) -> &[String] {
        &self.shown
    }

    /// Something other than one wrong answer; it is always shown.
    fn fail(&mut self, failure: String) {
        self.failures += 1;
        self.shown.push(failure);
    }

    fn count(&mut self, question: &Question) {
        self.inputs += 1;
        self.remarks.extend(question.case.remark);
        if let Line::Call(Call::Install { .. }) = question.case.line {
            self.begun = Some(self.inputs);
        }
        let kind = kind_of(&question.paper);
        match self.kinds.get_mut(kind) {
            Some(count) => *count += 1,
            None => drop(self.kinds.insert(kind.to_string(), 1)),
        }
    }

    fn compare(&mut self, question: &Question, answer: &str) {
        if question.agrees(answer) {
            return;
        }
        self.failures += 1;
        if self.failures <= SHOWN {
            self.shown.push(question.shown_with(self, answer));
        }
    }

    /// A group with too few inputs, or with too few of one kind, shows nothing: that is a failure too. So is an answer
    /// that the call does not have.
    fn check_coverage(&mut self, group: &Group) {
        if self.inputs < group.least {
            self.fail(format!("only {} inputs, {} needed", self.inputs, group.least));
        }
        for (kind, share) in group.shares {
            let count = self.kinds.get(*kind).copied().unwrap_or(0);
            if self.inputs == 0 || count * 100 < self.inputs * share {
                self.fail(format!(
                    "'{kind}' only {count} times of {}, {share} % needed",
                    self.inputs
                ));
            }
        }
        for (call, numbers) in ANSWERS.iter().filter(|(call, _)| group.complete.contains(call)) {
            for number in *numbers {
                let kind = format!("{call} {number}");
                if !self.kinds.contains_key(&kind) {
                    self.fail(format!("'{kind}' never occurs"));
                }
            }
        }
        let strange: Vec<String> = self.kinds.keys().filter(|kind| !is_listed(kind)).cloned().collect();
        for kind in strange {
            self.fail(format!("'{kind}' is no answer that document 01 lists for the call"));
        }
    }
}

impl fmt::Display for Report {
    fn fmt(&self, out: &mut fmt::Formatter<'_>) -> fmt::Result {
        for remark in &self.remarks {
            write!(out, "{remark}: ")?;
        }
        write!(out, "{} inputs (", self.inputs)?;
        for (place, (kind, count)) in self.kinds.iter().enumerate() {
            let comma = if place > 0 { ", " } else { "" };
            write!(out, "{comma}{kind}: {count}")?;
        }
        match self.failures {
            0 => write!(out, "): passed"),
            failures => write!(out, "): FAILED, {failures} failures"),
        }
    }
}

/// An input that was put to replay, with paper's answer.
struct Question {
    case: Case,
    paper: String,
}

impl Question {
    /// Whether replay's answer, paper's and what is stated are the same. The reason of an error is free.
    fn agrees(&self, answer: &str) -> bool {
        let same = match error_number(&self.paper) {
            Some(number) => error_number(answer) == Some(number),
            None => answer == self.paper,
        };
        same && self.case.stated.as_ref().is_none_or(|stated| self.says(stated))
    }

    /// Whether paper's answer is the one stated, or begins with it where no more than the number is stated.
    fn says(&self, stated: &str) -> bool {
        match self.paper.strip_prefix(stated) {
            Some(rest) => rest.is_empty() || rest.starts_with(' '),
            None => false,
        }
    }

    fn shown_with(&self, report: &Report, answer: &str) -> String {
        let since = match report.begun {
            Some(begun) => format!(" (since input {begun})"),
            None => String::new(),
        };
        let mut shown = format!(
            "input {}{since}: {}\n    script: {}\n    replay: {answer}\n    paper:  {}",
            report.inputs,
            self.case.line.explained(),
            self.case.line(),
            self.paper
        );
        if let Some(stated) = &self.case.stated {
            shown.push_str("\n    stated: ");
            shown.push_str(stated);
        }
        shown
    }
}

/// The line number in `error LINE-NUMBER REASON`.
fn error_number(answer: &str) -> Option<&str> {
    let (number, reason) = answer.strip_prefix("error ")?.split_once(' ')?;
    (!reason.is_empty()).then_some(number)
}

/// Runs one group with one seed. An error means that replay could not be started.
pub fn run(group: &Group, seed: u64, options: &Options) -> Result<Report, String> {
    let mut replay = Replay::start(&options.replay, options.patience)?;
    let script = replay.script();
    let cases = (group.cases)(seed);
    let mut report = Report::default();
    let (send, questions) = channel();
    thread::scope(|scope| {
        scope.spawn(move || ask(cases, script, send));
        listen(replay, questions, &mut report, options);
    });
    if report.passed() {
        report.check_coverage(group);
    }
    Ok(report)
}

/// Writes the script. The questions of a batch are handed on before its lines are written, so that the listener
/// always knows what the next answer belongs to. The queue between them has no limit: however late replay writes its
/// answers, the script is never held up by the listener.
fn ask(cases: Cases, mut script: impl Write, send: Sender<Vec<Question>>) {
    let mut player = Player::default();
    let mut lines = Vec::new();
    let mut questions = Vec::new();
    let mut hand_on = |lines: &mut Vec<u8>, questions: &mut Vec<Question>| {
        let heard = send.send(std::mem::take(questions)).is_ok();
        let written = heard && script.write_all(lines).is_ok();
        lines.clear();
        written
    };
    for mut case in cases {
        case.line.write(&mut lines);
        lines.push(b'\n');
        if let Some(paper) = case.paper.take().or_else(|| player.answer(&case.line)) {
            questions.push(Question { case, paper });
        }
        // If replay or the listener has gone, the listener knows why.
        if lines.len() >= BATCH && !hand_on(&mut lines, &mut questions) {
            return;
        }
    }
    hand_on(&mut lines, &mut questions);
}

/// Compares the answers as they come.
fn listen(mut replay: Replay, questions: Receiver<Vec<Question>>, report: &mut Report, options: &Options) {
    for question in questions.into_iter().flatten() {
        report.count(&question);
        match answer_to(&question, &mut replay) {
            Answer::Line(answer) => report.compare(&question, &answer),
            Answer::End => {
                let status = replay.stop();
                return report.fail(question.shown_with(report, &format!("has ended ({status})")));
            }
            Answer::Silence => {
                replay.stop();
                return report.fail(question.shown_with(report, "no answer in time"));
            }
        }
        if options.first && !report.passed() {
            replay.stop();
            return;
        }
    }
    listen_for_the_end(replay, report);
}

/// The line that answers a question. What `state` writes for people before its last line is free.
fn answer_to(question: &Question, replay: &mut Replay) -> Answer {
    loop {
        match replay.answer() {
            Answer::Line(line) if kind_of(&question.paper) == "state" && !is_last_of_state(&line) => continue,
            answer => return answer,
        }
    }
}

fn is_last_of_state(line: &str) -> bool {
    line.starts_with("state root=") || line.starts_with("error ")
}

/// After the last answer nothing more may come, and replay has to end well.
fn listen_for_the_end(mut replay: Replay, report: &mut Report) {
    match replay.answer() {
        Answer::End => {
            if let Err(failure) = replay.finish() {
                report.fail(failure);
            }
        }
        Answer::Line(line) => {
            replay.stop();
            report.fail(format!("more answers than calls\n    replay: {line}"));
        }
        Answer::Silence => {
            replay.stop();
            report.fail("replay does not end after its last answer".to_string());
        }
    }
}

#[cfg(test)]
mod tests {
    use super::{Case, Group, Question, Report};
    use crate::calls::Call;

    fn group(least: usize, shares: &'static [(&'static str, usize)]) -> Group {
        Group {
            name: "tried",
            calls: &[],
            cases: |_| Box::new(std::iter::empty()),
            least,
            shares,
            complete: &[],
            renewed: false,
        }
    }

    /// A report on `sound` texts that paper takes and `broken` ones that it refuses.
    fn report(sound: usize, broken: usize) -> Report {
        let mut report = Report::default();
        for number in 0..sound + broken {
            let paper = if number < sound { "text 0" } else { "text 2" };
            let case = Case::open(Call::Text(Vec::new()));
            report.count(&Question {
                case,
                paper: paper.to_string(),
            });
        }
        report
    }

    fn passes(mut report: Report, group: &Group) -> bool {
        report.check_coverage(group);
        report.passed()
    }

    #[test]
    fn too_few_inputs_fail() {
        assert!(passes(report(5, 0), &group(5, &[])));
        assert!(!passes(report(4, 0), &group(5, &[])));
        assert!(!passes(report(0, 0), &group(1, &[])));
    }

    #[test]
    fn a_share_that_is_too_small_fails() {
        let both = group(1, &[("text 0", 10), ("text 2", 10)]);
        assert!(passes(report(10, 90), &both));
        assert!(!passes(report(9, 91), &both));
        assert!(!passes(report(91, 9), &both));
        assert!(!passes(report(100, 0), &both));
    }

    #[test]
    fn replay_paper_and_what_is_stated_must_agree() {
        let question = |paper: &str, stated: Option<&str>| Question {
            case: Case {
                stated: stated.map(str::to_string),
                ..Case::open(Call::Text(Vec::new()))
            },
            paper: paper.to_string(),
        };
        assert!(question("text 2", None).agrees("text 2"));
        assert!(!question("text 2", None).agrees("text 0"));
        assert!(question("text 2", Some("text 2")).agrees("text 2"));
        assert!(!question("text 2", Some("text 0")).agrees("text 2"));
        assert!(!question("text 2", Some("text 0")).agrees("text 0"));
        assert!(question("cycle 0 root=-", Some("cycle 0")).agrees("cycle 0 root=-"));
        assert!(!question("cycle 0 root=-", Some("cycle 0")).agrees("cycle 0"));
        assert!(!question("root 11 root=1", Some("root 1")).agrees("root 11 root=1"));
    }

    #[test]
    fn only_the_line_of_an_error_is_compared() {
        let question = Question {
            case: Case::open(Call::State),
            paper: "error 7 unknown call".to_string(),
        };
        assert!(question.agrees("error 7 no such call"));
        for other in ["error 8 unknown call", "error 7", "error 7 ", "error", "state root=-"] {
            assert!(!question.agrees(other), "{other}");
        }
    }

    #[test]
    fn a_missing_or_strange_answer_fails() {
        let complete = Group {
            complete: &["text"],
            ..group(1, &[])
        };
        assert!(!passes(report(1, 1), &complete));
        let mut whole = report(1, 1);
        whole.kinds.insert("text 1".to_string(), 1);
        assert!(passes(whole, &complete));
        let mut strange = report(1, 1);
        strange.kinds.insert("text 3".to_string(), 1);
        assert!(!passes(strange, &group(1, &[])));
    }
}
