//! Times the proved check and run beside the second engine on the same sheets,
//! run also beside a plain interpreter in C, and the proved watch beside run,
//! and counts the instructions of each. With a folder as its argument it writes
//! charts of the times there.

mod chart;
mod checks;
mod clock;
mod count;
mod engines;
mod interpreter;
mod places;
mod runs;
mod sheets;
mod timing;

use chart::{Group, Line, Panel};
use checks::{Checks, PROVED, SECOND};
use engines::Engine;
use runs::{ratio, Runs, RATIOS};
use std::path::Path;
use std::{env, fs, io};

fn main() -> io::Result<()> {
    let arguments: Vec<String> = env::args().skip(1).collect();
    match &arguments[..] {
        [task, what, sheet, amount] if task == count::TASK => {
            count::work(what, sheet, amount.parse().expect("an amount"));
            Ok(())
        }
        folder => report(folder.first().map(Path::new)),
    }
}

fn report(folder: Option<&Path>) -> io::Result<()> {
    if !count::available() {
        println!("No instructions are counted: there is no valgrind.\n");
    }
    let checks = checks::report();
    println!();
    let runs = runs::report();
    if let Some(folder) = folder {
        fs::create_dir_all(folder)?;
        fs::write(folder.join("ratios.svg"), ratios(&checks, &runs))?;
        fs::write(folder.join("growth.svg"), growth(&checks, &runs))?;
    }
    Ok(())
}

/// Series of the bars: what the proved code is compared with.
const COMPARED: [&str; 3] = [
    "the second engine, in Rust",
    "the plain interpreter, in C",
    "the proved run",
];

fn ratios(checks: &Checks, runs: &Runs) -> String {
    let [over_plain, over_second, over_run] = RATIOS;
    let of_checks = checks.largest.iter().map(|(name, rounds)| Group {
        name: format!("check, {name}"),
        values: vec![(0, rounds.ratio(PROVED, SECOND).median)],
    });
    let of_runs = runs.loops.iter().map(|(name, times)| Group {
        name: format!("run, {name}"),
        values: vec![
            (0, ratio(times, over_second).median),
            (1, ratio(times, over_plain).median),
        ],
    });
    let of_watches = runs.loops.iter().map(|(name, times)| Group {
        name: format!("watch, {name}"),
        values: vec![(2, ratio(times, over_run).median)],
    });
    let groups: Vec<Group> = of_checks.chain(of_runs).chain(of_watches).collect();
    chart::bars(
        "The proved code's time, as so many times the time of",
        &COMPARED,
        &groups,
    )
}

fn growth(checks: &Checks, runs: &Runs) -> String {
    let check = |engine: usize| {
        let points = checks.growth.iter();
        points
            .map(|(bytes, rounds)| (*bytes as f64 / 1024.0, rounds.seconds(engine) * 1e6))
            .collect()
    };
    let run = |engine: Engine| {
        let points = runs.growth.iter();
        points
            .map(|(steps, times)| (*steps as f64 / 1000.0, times.seconds(engine as usize) * 1e3))
            .collect()
    };
    let line = |name, points| Line { name, points };
    chart::panels(&[
        Panel {
            title: "Time of check against the sheet's size",
            across: "KiB, mostly instructions",
            up: "µs",
            lines: vec![
                line("proved", check(PROVED)),
                line("second engine", check(SECOND)),
            ],
        },
        Panel {
            title: "Time of run against its steps",
            across: "thousand steps, fetch and store",
            up: "ms",
            lines: vec![
                line("proved", run(Engine::Run)),
                line("second engine", run(Engine::Second)),
                line("plain C", run(Engine::Plain)),
                line("watch", run(Engine::Watch)),
            ],
        },
    ])
}
