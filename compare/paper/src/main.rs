//! Plays a script as docs/REPLAY.md fixes it: calls on standard input, answers on standard output.

use std::io::{self, BufRead, BufWriter, Write};

use paper::script::Script;

fn main() -> io::Result<()> {
    let mut script = Script::default();
    let mut output = BufWriter::new(io::stdout().lock());
    for line in io::stdin().lock().split(b'\n') {
        if let Some(answer) = script.line(&line?) {
            writeln!(output, "{answer}")?;
        }
    }
    output.flush()
}
