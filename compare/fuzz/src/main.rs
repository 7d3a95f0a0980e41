//! Makes random and mutated calls through the C interface and compares the answers with paper's.

mod archive;
mod signals;

use std::process::ExitCode;
use std::time::Instant;

use fuzz::options::{Options, USAGE};
use fuzz::run;

fn main() -> ExitCode {
    let options = match Options::read(std::env::args().skip(1)) {
        Ok(options) => options,
        Err(error) => {
            eprintln!("{error}\n{USAGE}");
            return ExitCode::from(2);
        }
    };
    if options.help {
        println!("{USAGE}");
        return ExitCode::SUCCESS;
    }
    signals::say_where(options.seed);
    let start = Instant::now();
    let shown = match run::run(&archive::Archive, &options) {
        Ok(shown) => shown,
        Err(failure) => {
            println!("fuzz: FAILED\n{failure}");
            return ExitCode::FAILURE;
        }
    };
    let (calls, seconds) = (shown.counts.sum(), start.elapsed().as_secs_f64());
    println!(
        "fuzz, seed {}, {seconds:.1} s: {calls} calls through the C interface, every answer that of paper",
        options.seed
    );
    print!("{}", shown.counts);
    if let Some(said) = shown.driver {
        println!("  the driver in C: {said}");
    }
    ExitCode::SUCCESS
}
