//! Generated sheets on both machines, step by step, and what has come up.

use generator::runs::families::{Family, ANY_ACCEPTED, MISDECLARED, RUNNABLE, SETTLING, TRIALS};
use generator::runs::stops::{
    accepted_orders, accepted_sites, wellformed_orders, wellformed_sites, Coverage,
};
use generator::runs::{plenty, Run};
use generator::Random;
use reference::machine::{self, plain, together, watched, Ended, Need};
use reference::{run, watch, Program, Stop};
use std::thread;

/// Families and how many seeds of each are run.
type Families = [(Family, u64)];
const ACCEPTED: &Families = &[(RUNNABLE, 4_500), (ANY_ACCEPTED, 1_000)];
const WELLFORMED: &Families = &[(TRIALS, 19_000), (MISDECLARED, 4_000), (SETTLING, 3_000)];

/// What check says about the sheet of a run.
#[derive(Clone, Copy, Debug, PartialEq)]
enum Checked {
    Accepted,
    WellFormed,
}

/// The program of a well-formed sheet. Accepted ones go through both
/// machines, also if they come from a family that need not be accepted.
fn program(sheet: &[u8]) -> (Program, Checked) {
    match machine::accepted(sheet, 0) {
        Ok(program) => (program, Checked::Accepted),
        Err(_) => {
            let program = machine::wellformed(sheet, 0).expect("the layout is right");
            (program, Checked::WellFormed)
        }
    }
}

/// Makes one run: of an accepted sheet on both machines step by step.
fn end(program: &Program, checked: Checked, lent: &Run) -> Ended {
    match checked {
        Checked::Accepted => together::run(program, lent.resources())
            .unwrap_or_else(|fault| panic!("{fault} in {lent:?}")),
        Checked::WellFormed => watched::examine(program, lent.resources()),
    }
}

/// The calls with the bytes of the sheet say the same.
fn same_by_bytes(checked: Checked, lent: &Run, ended: &Ended) {
    let due = (ended.outcome, lent.output_after(&ended.output));
    assert_eq!(lent.on(watch), due);
    if checked == Checked::Accepted {
        assert_eq!(lent.on(run), due);
    }
}

/// All runs of one seed of a family.
fn runs_of(family: &Family, seed: u64, coverage: &mut Coverage) {
    let (program, checked) = program(&family.sheet(seed).encode());
    assert!(checked == Checked::Accepted || !family.accepted, "{seed}");
    let all = family.runs(seed, |first| end(&program, checked, first).need);
    for (number, lent) in all.iter().enumerate() {
        let ended = end(&program, checked, lent);
        coverage.add(&ended);
        if number % 4 == 0 {
            same_by_bytes(checked, lent, &ended);
        }
    }
}

/// The runs of a family on all processors.
fn runs_of_family(family: &Family, seeds: u64) -> Coverage {
    let workers = thread::available_parallelism().map_or(1, usize::from) as u64;
    let work = |first: u64| {
        let mut coverage = Coverage::default();
        for seed in (first..seeds).step_by(workers as usize) {
            runs_of(family, seed, &mut coverage);
        }
        coverage
    };
    let mut whole = Coverage::default();
    thread::scope(|scope| {
        let handles: Vec<_> = (0..workers)
            .map(|first| scope.spawn(move || work(first)))
            .collect();
        for handle in handles {
            match handle.join() {
                Ok(part) => whole.merge(part),
                Err(cause) => std::panic::resume_unwind(cause),
            }
        }
    });
    let (runs, steps) = (whole.runs, whole.steps);
    println!("{}: {runs} runs, {steps} steps", family.name);
    whole
}

/// The runs of all families, and what has come up in them.
fn runs(families: &Families) -> Coverage {
    let mut whole = Coverage::default();
    for (family, seeds) in families {
        whole.merge(runs_of_family(family, *seeds));
    }
    for ((code, stop, phase), count) in &whole.sites {
        println!("{stop:?} at {code:?} by {phase:?}: {count}");
    }
    for ((code, first, later), count) in &whole.orders {
        println!("{code}: {first:?} before {later:?}: {count}");
    }
    whole
}

#[test]
fn accepted_runs_have_nothing_to_object_to() {
    let whole = runs(ACCEPTED);
    assert!(whole.runs >= 50_000, "{}", whole.runs);
    let faults = whole.faults(&accepted_sites(), &accepted_orders());
    assert!(faults.is_empty(), "{}", faults.join("\n"));
}

#[test]
fn watched_runs_come_to_every_stop_in_every_order() {
    let whole = runs(WELLFORMED);
    assert!(whole.runs >= 100_000, "{}", whole.runs);
    let faults = whole.faults(&wellformed_sites(), &wellformed_orders());
    assert!(faults.is_empty(), "{}", faults.join("\n"));
}

fn first_run(seed: u64) -> Run {
    let sheet = RUNNABLE.sheet(seed).encode();
    plenty(&mut Random::new(!seed), sheet)
}

/// A run with one of each resource less than it needs, if it needs any, and
/// the stop that it must come to.
fn one_less(exact: &Run, need: Need) -> Vec<(Run, Stop)> {
    let mut all = Vec::new();
    let mut add = |needs: bool, change: fn(&mut Run), stop: Stop| {
        if needs {
            let mut less = exact.clone();
            change(&mut less);
            all.push((less, stop));
        }
    };
    add(true, |run| run.fuel -= 1, Stop::FuelSpent);
    add(true, |run| run.memory_words -= 1, Stop::MemoryFull);
    let drop_input = |run: &mut Run| run.input.truncate(run.input.len() - 1);
    add(need.input > 0, drop_input, Stop::InputEnded);
    let drop_output = |run: &mut Run| run.output.truncate(run.output.len() - 1);
    add(need.output > 0, drop_output, Stop::OutputFull);
    all
}

/// With exactly its need a run that is done is done the same way; with one
/// less of anything it stops for want of it.
#[test]
fn the_need_is_exact() {
    let mut done = 0;
    for seed in 0..2_000 {
        let lent = first_run(seed);
        let (program, checked) = program(&lent.sheet);
        let first = end(&program, checked, &lent);
        if first.outcome.number() != Stop::Done as u64 {
            continue;
        }
        done += 1;
        let exact = Run {
            sheet: lent.sheet,
            input: lent.input[..first.need.input].to_vec(),
            fuel: first.need.steps,
            memory_words: first.need.memory_words,
            output: lent.output[..first.need.output].to_vec(),
        };
        assert_eq!(end(&program, checked, &exact), first, "seed {seed}");
        for (less, stop) in one_less(&exact, first.need) {
            let number = end(&program, checked, &less).outcome.number();
            assert_eq!(number, stop as u64, "seed {seed}");
        }
    }
    assert!(done > 400, "{done}");
}

/// A step that stops changes nothing: the state at the stop is the one after
/// as many steps, but for the return that gives 11.
#[test]
fn a_step_that_stops_changes_nothing() {
    for seed in 0..1_500 {
        let lent = first_run(seed);
        let (program, _) = program(&lent.sheet);
        let resources = lent.resources();
        let mut first = plain::Machine::start(&program, resources).expect("main fits");
        let mut second = watched::Machine::start(&program, resources).expect("main fits");
        let end = first.finish();
        second.finish();
        if end == plain::End::Stop(Stop::Done) {
            assert!(first.state().frames.is_empty());
            continue;
        }
        let mut plain = plain::Machine::start(&program, resources).expect("main fits");
        let mut watched = watched::Machine::start(&program, resources).expect("main fits");
        let steps = first.state().steps;
        assert_eq!(plain.advance(steps), Ok(()), "seed {seed}");
        assert_eq!(watched.advance(steps), Ok(()), "seed {seed}");
        assert_eq!(plain.state(), first.state(), "seed {seed}");
        assert_eq!(watched.state(), second.state(), "seed {seed}");
    }
}
