//! The engines that run a sheet.

use crate::interpreter::Accepted;
use crate::places::Place;
use crate::timing::Call;
use std::hint::black_box;
use wennathig::Machine;

/// Words of memory in every run of a loop.
pub const LOOP_MEMORY: usize = 64;

/// In the order in which they take turns, so that run and what it is compared
/// with are neighbours.
#[derive(Clone, Copy)]
pub enum Engine {
    /// The plain interpreter in C.
    Plain,
    Run,
    Watch,
    /// The second engine's run.
    Second,
}

impl Engine {
    pub const ALL: [Engine; 4] = [Engine::Plain, Engine::Run, Engine::Watch, Engine::Second];

    pub fn name(self) -> &'static str {
        match self {
            Engine::Plain => "C",
            Engine::Run => "run",
            Engine::Watch => "watch",
            Engine::Second => "second",
        }
    }

    /// A call that runs an accepted sheet for so many steps at most.
    pub fn call<'a>(
        self,
        place: &'a Place,
        sheet: &'a [u8],
        steps: u64,
        memory_words: usize,
    ) -> Call<'a> {
        let mut memory = vec![0; memory_words];
        let mut proved = move |machine: Machine| {
            let (sheet, memory) = (black_box(sheet), black_box(&mut memory));
            machine(sheet, &[], steps, memory, &mut [], &mut [0; 5]);
        };
        match self {
            Engine::Run => Box::new(move || proved(place.run)),
            Engine::Watch => Box::new(move || proved(place.watch)),
            Engine::Second => Box::new(move || {
                let sheet = black_box(sheet);
                black_box(reference::run(sheet, &[], steps, memory_words, &mut []));
            }),
            Engine::Plain => {
                let accepted = Accepted::new(sheet).expect("the sheet is accepted");
                let mut memory = vec![0; memory_words];
                Box::new(move || {
                    let memory = black_box(&mut memory);
                    let steps = black_box(steps);
                    accepted.run_into(place.plain, &[], steps, memory, &mut [], &mut [0; 5]);
                })
            }
        }
    }
}
