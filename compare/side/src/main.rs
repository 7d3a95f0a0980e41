//! Runs replay and paper side by side; the last line says how many groups of inputs passed and failed.

use std::io::{BufWriter, Write, stdout};
use std::process::ExitCode;
use std::time::Instant;

use side::compare::{self, Group};
use side::groups;
use side::options::{Options, USAGE};

fn main() -> ExitCode {
    let mut options = match Options::read(std::env::args().skip(1)) {
        Ok(options) => options,
        Err(error) => return refuse(&format!("{error}\n{USAGE}")),
    };
    if options.help {
        println!("{USAGE}");
        return ExitCode::SUCCESS;
    }
    let mut groups = groups::all();
    groups.retain(|group| group.name.contains(&options.only));
    if options.list {
        groups.iter().for_each(|group| println!("{}", group.name));
        return ExitCode::SUCCESS;
    }
    if groups.is_empty() {
        return refuse(&format!("no group of inputs has '{}' in its name", options.only));
    }
    if options.print {
        return print(&groups, options.seed);
    }
    if !options.all_calls {
        groups.retain(is_compared);
    }
    if let Err(error) = enter_folder(&mut options) {
        return refuse(&error);
    }
    match run_all(&groups, &options) {
        Ok(failed) => conclude(groups.len() - failed, failed),
        Err(error) => {
            refuse(&error);
            conclude(0, groups.len())
        }
    }
}

/// Whether all the calls of a group are compared. If not, says so.
fn is_compared(group: &Group) -> bool {
    let missing = groups::missing_calls(group);
    if !missing.is_empty() {
        println!("{}: left out, not compared yet: {}", group.name, missing.join(", "));
    }
    missing.is_empty()
}

/// Goes to the folder in which the scripts are played. Replay is still found where it was meant.
fn enter_folder(options: &mut Options) -> Result<(), String> {
    let replay = std::path::absolute(&options.replay);
    options.replay = replay.map_err(|error| error.to_string())?;
    let folder = side::folder();
    std::env::set_current_dir(&folder).map_err(|error| format!("{}: {error}", folder.display()))
}

/// Prints the script of each group.
fn print(groups: &[Group], seed: u64) -> ExitCode {
    let mut output = BufWriter::new(stdout().lock());
    let lines = groups.iter().flat_map(|group| (group.cases)(seed));
    for case in lines {
        if writeln!(output, "{}", case.line()).is_err() {
            return ExitCode::FAILURE;
        }
    }
    ExitCode::SUCCESS
}

fn refuse(error: &str) -> ExitCode {
    eprintln!("{error}");
    ExitCode::from(2)
}

fn conclude(passed: usize, failed: usize) -> ExitCode {
    println!("{passed} passed, {failed} failed");
    if failed == 0 {
        ExitCode::SUCCESS
    } else {
        ExitCode::FAILURE
    }
}

/// Runs every group once, and then, as long as asked for, with fresh seeds those that a fresh seed renews. Gives the
/// number of groups that failed in any round.
fn run_all(groups: &[Group], options: &Options) -> Result<usize, String> {
    let start = Instant::now();
    let mut failed = vec![false; groups.len()];
    let mut seed = options.seed;
    loop {
        for (group, failed) in groups.iter().zip(&mut failed) {
            if seed == options.seed || group.renewed {
                *failed |= !run_one(group, seed, options)?;
            }
        }
        seed = seed.wrapping_add(1);
        if start.elapsed() >= options.duration || !groups.iter().any(|group| group.renewed) {
            return Ok(failed.iter().filter(|failed| **failed).count());
        }
    }
}

/// Runs a group and prints its report. Gives whether it passed.
fn run_one(group: &Group, seed: u64, options: &Options) -> Result<bool, String> {
    let start = Instant::now();
    let report = compare::run(group, seed, options)?;
    let seconds = start.elapsed().as_secs_f64();
    println!("{}, seed {seed}, {seconds:.2} s: {report}", group.name);
    for failure in report.shown() {
        println!("  {}, seed {seed}, {}", group.name, shortened(failure, options));
    }
    Ok(report.passed())
}

/// A failure with its very long lines cut off, unless they are asked for.
fn shortened(failure: &str, options: &Options) -> String {
    const LONGEST: usize = 2_000;
    const LEFT: usize = 200;
    let lines = failure.lines().map(|line| match line.chars().count() {
        length if length > LONGEST && !options.whole => {
            let start: String = line.chars().take(LEFT).collect();
            format!("{start} ... (cut off; --whole prints all)")
        }
        _ => line.to_string(),
    });
    lines.collect::<Vec<_>>().join("\n")
}
