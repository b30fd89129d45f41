//! Times the proved and the plain replay on one log, from the file to nowhere.

mod figures;

use figures::Times;
use std::fs::File;
use std::io::{Error, Result};
use std::process::{Command, ExitCode, Stdio};
use std::time::Instant;

const ROUNDS: usize = 31;

/// The time of one run by the clock, in ms.
fn run(program: &str, log: &str) -> Result<f64> {
    let mut command = Command::new(program);
    command.stdin(File::open(log)?).stdout(Stdio::null());
    let start = Instant::now();
    let status = command.status()?;
    let time = start.elapsed();
    if !status.success() {
        return Err(Error::other(format!("{program}: {status}")));
    }
    Ok(time.as_secs_f64() * 1e3)
}

fn time(log: &str, proved: &str, plain: &str) -> Result<Times> {
    let mut times = Times::default();
    for round in 0..ROUNDS {
        if round % 2 == 0 {
            times.proved.push(run(proved, log)?);
            times.plain.push(run(plain, log)?);
        } else {
            times.plain.push(run(plain, log)?);
            times.proved.push(run(proved, log)?);
        }
    }
    Ok(times)
}

fn main() -> ExitCode {
    let arguments: Vec<String> = std::env::args().skip(1).collect();
    let [log, proved, plain] = arguments.as_slice() else {
        eprintln!("usage: replays LOG PROVED PLAIN");
        return ExitCode::from(2);
    };
    match time(log, proved, plain) {
        Ok(times) => {
            figures::print_heading("ms per run");
            figures::print_times("replay of the log", ["proved", "plain Rust"], &times, 0.85);
            println!(
                "From the file to /dev/null, by the clock, with the start of the process; both"
            );
            println!(
                "built for release. {ROUNDS} runs each, the order of the two changed each time."
            );
            ExitCode::SUCCESS
        }
        Err(error) => {
            eprintln!("replays: {error}");
            ExitCode::FAILURE
        }
    }
}
