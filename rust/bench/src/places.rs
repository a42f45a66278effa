//! What is timed, at several places of the program.
//!
//! Where a loop stands decides what the processor's predictors make of it: the
//! same instructions take up to a third more at one place than at another, and
//! what else is linked moves them. So nothing is measured at one place. The
//! build makes copies of the proved libraries and of the plain interpreter,
//! which stand at as many places as chance gives them.

use crate::interpreter::{interpreter, Interpreter};
use wennathig::{checker, machine, Machine};

/// [`wennathig::check_into`].
pub type Checker = fn(&[u8], &mut [u64]) -> u64;

/// A copy of each.
pub struct Place {
    pub check: Checker,
    pub run: Machine,
    pub watch: Machine,
    pub plain: Interpreter,
}

/// Declares the copies of one place a line; rust/bench/build.rs makes them.
macro_rules! places {
    ($($place:ident $check:ident $run:ident $watch:ident $plain:ident)*) => {
        $(mod $place {
            super::checker! { check, $check }
            super::machine! { run, $run }
            super::machine! { watch, $watch }
            super::interpreter! { $plain }
        })*

        /// All of them.
        pub const PLACES: &[Place] = &[$(Place {
            check: $place::check,
            run: $place::run,
            watch: $place::watch,
            plain: $place::$plain,
        }),*];
    };
}

places! {
    place_0 wn_check_0 wn_run_0 wn_watch_0 bench_run_0
    place_1 wn_check_1 wn_run_1 wn_watch_1 bench_run_1
    place_2 wn_check_2 wn_run_2 wn_watch_2 bench_run_2
    place_3 wn_check_3 wn_run_3 wn_watch_3 bench_run_3
    place_4 wn_check_4 wn_run_4 wn_watch_4 bench_run_4
    place_5 wn_check_5 wn_run_5 wn_watch_5 bench_run_5
    place_6 wn_check_6 wn_run_6 wn_watch_6 bench_run_6
    place_7 wn_check_7 wn_run_7 wn_watch_7 bench_run_7
}
