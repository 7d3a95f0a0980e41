//! Measures the static library against plain Rust, written in two ways, on the same inputs, by turns.

mod calls;
mod client;
mod inputs;
mod measure;
mod options;
mod rattle;
mod report;
mod work;

use std::process::ExitCode;

use measure::{Line, PASSES, play_times};
use options::{Options, Side, USAGE};
use work::Work;

fn main() -> ExitCode {
    let options = match Options::read(std::env::args().skip(1)) {
        Some(options) => options,
        None => {
            eprintln!("{USAGE}");
            return ExitCode::from(2);
        }
    };
    if options.help {
        println!("{USAGE}");
        return ExitCode::SUCCESS;
    }
    let wanted: Vec<Work> = work::all()
        .into_iter()
        .filter(|work| options.picks(&work.name))
        .collect();
    match options.play {
        Some((side, times)) => wanted.iter().for_each(|work| play_on(side, work, times)),
        None => match measured(wanted) {
            Ok(lines) => print!("{}", report::written(&lines, options.markdown)),
            Err(difference) => {
                eprintln!("bench: the sides differ: {difference}");
                return ExitCode::FAILURE;
            }
        },
    }
    ExitCode::SUCCESS
}

/// Plays the calls so many times on one side alone.
fn play_on(side: Side, work: &Work, times: usize) {
    match side {
        Side::Rattle => play_times::<rattle::State>(work, times),
        Side::Ordinary => play_times::<ordinary::State>(work, times),
        Side::OnePass => play_times::<onepass::State>(work, times),
    }
}

/// The lines after all passes, or where the sides differ.
fn measured(wanted: Vec<Work>) -> Result<Vec<Line>, String> {
    let mut lines: Vec<Line> = wanted.into_iter().map(Line::new).collect::<Result<_, _>>()?;
    for _ in 0..PASSES {
        lines.iter_mut().for_each(Line::pass);
    }
    Ok(lines)
}
