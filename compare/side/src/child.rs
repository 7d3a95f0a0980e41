//! Replay as a child process. One thread writes the script, another reads the answers, so that neither pipe can hold
//! up the other; whoever asks for an answer waits only so long.

use std::io::{Read, Write};
use std::path::Path;
use std::process::{Child, ChildStdin, ChildStdout, Command, Stdio};
use std::sync::mpsc::{Receiver, RecvTimeoutError, channel};
use std::thread;
use std::time::Duration;

/// The answers are read in pieces of up to this many bytes.
const PIECE: usize = 1 << 16;

/// A running replay.
pub struct Replay {
    child: Child,
    script: Option<ChildStdin>,
    answers: Answers,
}

impl Replay {
    /// Starts the program.
    pub fn start(program: &Path, patience: Duration) -> Result<Replay, String> {
        let mut child = Command::new(program)
            .stdin(Stdio::piped())
            .stdout(Stdio::piped())
            .spawn()
            .map_err(|error| format!("cannot start replay as {}: {error}", program.display()))?;
        let script = child.stdin.take();
        let output = child.stdout.take().expect("the output was asked for");
        Ok(Replay {
            child,
            script,
            answers: Answers::new(output, patience),
        })
    }

    /// The end of the pipe that takes the script; to be asked for once. Dropping it ends the script.
    pub fn script(&mut self) -> impl Write + Send + use<> {
        self.script.take().expect("there is one script for each replay")
    }

    /// The next line of the answers.
    pub fn answer(&mut self) -> Answer {
        self.answers.next()
    }

    /// Waits for the end of a program that has closed its output; an error if it did not end well.
    pub fn finish(mut self) -> Result<(), String> {
        match self.child.wait() {
            Ok(status) if status.success() => Ok(()),
            Ok(status) => Err(format!("replay ended with {status}")),
            Err(error) => Err(format!("cannot wait for replay: {error}")),
        }
    }

    /// Ends the program, whatever it is doing, and says how it ended.
    pub fn stop(mut self) -> String {
        // An error only means that it has ended already.
        let _ = self.child.kill();
        match self.child.wait() {
            Ok(status) => status.to_string(),
            Err(error) => error.to_string(),
        }
    }
}

/// What comes where a line is waited for.
#[derive(Debug, PartialEq, Eq)]
pub enum Answer {
    /// A line, without its end.
    Line(String),
    /// The end of the output.
    End,
    /// Nothing, for too long.
    Silence,
}

/// Cuts the output of a program into lines.
struct Answers {
    pieces: Receiver<Vec<u8>>,
    patience: Duration,
    unread: Vec<u8>,
    place: usize,
}

impl Answers {
    fn new(mut output: ChildStdout, patience: Duration) -> Answers {
        let (send, pieces) = channel();
        thread::spawn(move || {
            let mut piece = vec![0; PIECE];
            while let Ok(length @ 1..) = output.read(&mut piece) {
                if send.send(piece[..length].to_vec()).is_err() {
                    break;
                }
            }
        });
        Answers {
            pieces,
            patience,
            unread: Vec::new(),
            place: 0,
        }
    }

    fn next(&mut self) -> Answer {
        loop {
            let unread = &self.unread[self.place..];
            if let Some(length) = unread.iter().position(|&byte| byte == b'\n') {
                let line = String::from_utf8_lossy(&unread[..length]).into_owned();
                self.place += length + 1;
                return Answer::Line(line);
            }
            match self.pieces.recv_timeout(self.patience) {
                Ok(piece) => self.append(&piece),
                Err(RecvTimeoutError::Timeout) => return Answer::Silence,
                Err(RecvTimeoutError::Disconnected) => return self.rest(),
            }
        }
    }

    fn append(&mut self, piece: &[u8]) {
        self.unread.drain(..self.place);
        self.place = 0;
        self.unread.extend_from_slice(piece);
    }

    /// What is left at the end of the output. A last line without its end is shown as no whole line can look.
    fn rest(&mut self) -> Answer {
        let rest = self.unread.split_off(self.place);
        if rest.is_empty() {
            return Answer::End;
        }
        Answer::Line(format!("{} (line end missing)", String::from_utf8_lossy(&rest)))
    }
}
