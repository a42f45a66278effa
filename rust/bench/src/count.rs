//! Instructions, counted by callgrind: exactly, however busy the machine is.
//!
//! The benchmark starts itself under valgrind, to do some work and nothing
//! else, once for less of it and once for more. What both have in common, above
//! all starting and ending, is not in the difference.

use crate::engines::{Engine, LOOP_MEMORY};
use crate::places::PLACES;
use crate::sheets;
use std::env;
use std::hint::black_box;
use std::process::{Command, Stdio};

/// The first argument of a start that is counted; the work, a sheet's name and
/// an amount follow.
pub const TASK: &str = "count";
const CHECK: &str = "check";

/// Does the work: a number of checks, or the steps of an engine.
pub fn work(what: &str, sheet: &str, amount: u64) {
    let sheet = sheets::named(sheet).expect("the name of a sheet");
    let place = &PLACES[0];
    if what == CHECK {
        for _ in 0..amount {
            black_box((place.check)(black_box(&sheet), &mut [0]));
        }
        return;
    }
    let mut engines = Engine::ALL.into_iter();
    let engine = engines.find(|engine| engine.name() == what);
    engine
        .expect("the name of an engine")
        .call(place, &sheet, amount, LOOP_MEMORY)();
}

/// Whether there is something to count with.
pub fn available() -> bool {
    let mut valgrind = Command::new("valgrind");
    let quiet = valgrind.arg("--version").stdout(Stdio::null());
    quiet.status().is_ok_and(|status| status.success())
}

/// The instructions of one check.
pub fn check(sheet: &str) -> Option<u64> {
    let counted = [1, 3].map(|checks| collected(CHECK, sheet, checks));
    Some((counted[1]? - counted[0]?) / 2)
}

/// The instructions of a step in a loop. The steps between the two are whole
/// rounds of each loop, which have four or five.
pub fn step(engine: Engine, sheet: &str) -> Option<f64> {
    const LESS: u64 = 1_000;
    const MORE: u64 = 21_000;
    let counted = [LESS, MORE].map(|steps| collected(engine.name(), sheet, steps));
    Some((counted[1]? - counted[0]?) as f64 / (MORE - LESS) as f64)
}

/// All instructions of a start that does the work.
fn collected(what: &str, sheet: &str, amount: u64) -> Option<u64> {
    let mut valgrind = Command::new("valgrind");
    valgrind.args(["--tool=callgrind", "--callgrind-out-file=/dev/null"]);
    valgrind.arg(env::current_exe().ok()?);
    // Always so many digits, since reading them is counted too.
    valgrind.args([TASK, what, sheet, &format!("{amount:09}")]);
    let said = valgrind.output().ok()?;
    let said = String::from_utf8(said.stderr).ok()?;
    let (_, count) = said.split_once("Collected : ")?;
    count.lines().next()?.trim().parse().ok()
}

/// A number, or a sign that there is none.
pub fn shown(count: Option<impl ToString>) -> String {
    count.map_or_else(|| String::from("-"), |count| count.to_string())
}

#[cfg(test)]
mod tests {
    use super::{work, CHECK};
    use crate::engines::Engine;
    use crate::sheets::{largest, loops, small};

    /// A start under valgrind knows every name that it may be given.
    #[test]
    fn all_that_is_counted_can_be_done() {
        for (name, _) in largest().into_iter().chain(small()) {
            work(CHECK, name, 1);
        }
        for (name, _) in loops() {
            let engines = Engine::ALL.iter();
            engines.for_each(|engine| work(engine.name(), name, 10));
        }
    }
}
