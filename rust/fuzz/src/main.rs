//! The full drive, or one round again.

mod options;

use fuzz::counts::Counts;
use fuzz::drive::{drive, Found};
use fuzz::failure::Failure;
use fuzz::round::Worker;
use options::{Options, USAGE};
use std::env;
use std::process::ExitCode;

fn main() -> ExitCode {
    let arguments: Vec<String> = env::args().skip(1).collect();
    let Some(options) = Options::read(&arguments) else {
        eprintln!("{USAGE}");
        return ExitCode::from(2);
    };
    let holds = match options.round {
        Some(round) => again(options.seed, round),
        None => all(&options),
    };
    match holds {
        true => ExitCode::SUCCESS,
        false => ExitCode::FAILURE,
    }
}

/// Tries one round, and says whether everything holds.
fn again(seed: u64, round: u64) -> bool {
    let mut counts = Counts::default();
    let failures = Worker::start().try_round(seed, round, &mut counts);
    print!("{counts}");
    failures.iter().for_each(show);
    println!("{} properties do not hold", failures.len());
    failures.is_empty()
}

/// Tries all rounds, and says whether everything holds.
fn all(options: &Options) -> bool {
    let Found { counts, failures } = drive(options.seed, options.rounds);
    for (property, (count, kept)) in &failures {
        kept.iter().for_each(show);
        println!("{count} rounds in which this does not hold: {property}\n");
    }
    print!("{counts}");
    let (rounds, failed) = (options.rounds, failures.len());
    println!("{rounds} rounds, {failed} properties do not hold");
    failures.is_empty()
}

fn show(failure: &Failure) {
    println!("{failure}");
    match failure.keep() {
        Ok(path) => println!("  the input: {}", path.display()),
        Err(cause) => println!("  the input cannot be written: {cause}"),
    }
}
