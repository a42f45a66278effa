//! The proved run and watch beside each other, and run beside the second
//! engine and the plain C interpreter.

use crate::count;
use crate::engines::{Engine, LOOP_MEMORY};
use crate::interpreter::Accepted;
use crate::places::{Place, PLACES};
use crate::sheets::loops;
use crate::timing::{geometric_mean, Call, Rounds, Spread, FEW, MANY};
use generator::handwritten::SMALLEST;
use generator::loops::fetch_and_store;
use reference::machine::MAX_MEMORY;
use reference::Outcome;

/// The steps of a timed run: enough that its start and its end do not count.
const STEPS: u64 = 100_000;

/// The engines' times of a loop, in the order of [`Engine::ALL`].
pub type Times = Rounds<4>;

/// What is compared: an engine's time over that of another.
pub const RATIOS: [[Engine; 2]; 3] = [
    [Engine::Run, Engine::Plain],
    [Engine::Run, Engine::Second],
    [Engine::Watch, Engine::Run],
];

/// Whose instructions are counted, and whose start and end are timed.
const COUNTED: [Engine; 3] = [Engine::Run, Engine::Watch, Engine::Plain];

/// What the charts show.
pub struct Runs {
    pub loops: Vec<(&'static str, Times)>,
    /// By the steps of one loop.
    pub growth: Vec<(u64, Times)>,
}

pub fn report() -> Runs {
    let sheets = loops();
    sheets.iter().for_each(|(_, sheet)| same_outcomes(sheet));
    let at = |place| {
        sheets
            .each_ref()
            .map(|(_, sheet)| calls(place, sheet, STEPS))
    };
    let names = sheets.iter().map(|(name, _)| *name);
    let loops: Vec<(&str, Times)> = names.zip(Rounds::measured(MANY, at)).collect();
    show_times(&loops);
    println!();
    println!("Loops: ratios of the times of a round, the median and the quartiles");
    show_ratios(&loops);
    println!();
    println!("Loops: the same in the quietest tenth of the rounds");
    let quietest = loops.iter().map(|(name, times)| (*name, times.quietest()));
    show_ratios(&quietest.collect::<Vec<_>>());
    println!();
    show_instructions(&loops);
    println!();
    let growth = against_steps();
    println!();
    start_and_end();
    Runs { loops, growth }
}

fn calls<'a>(place: &'a Place, sheet: &'a [u8], steps: u64) -> [Call<'a>; 4] {
    Engine::ALL.map(|engine| engine.call(place, sheet, steps, LOOP_MEMORY))
}

/// The spread of an engine's time over that of another.
pub fn ratio(times: &Times, [engine, other]: [Engine; 2]) -> Spread {
    times.ratio(engine as usize, other as usize)
}

fn names<const COUNT: usize>(engines: [Engine; COUNT]) -> [String; COUNT] {
    engines.map(|engine| String::from(engine.name()))
}

/// A line of a table.
fn show<const COUNT: usize>(name: &str, columns: [String; COUNT]) {
    let columns = columns.map(|text| format!("{text:>20}"));
    println!("{name:<20}{}", columns.concat());
}

fn show_times(loops: &[(&str, Times)]) {
    println!("Loops: nanoseconds a step");
    show("loop", names(Engine::ALL));
    let step = |times: &Times, engine| times.seconds(engine as usize) / STEPS as f64 * 1e9;
    for (name, times) in loops {
        let columns = Engine::ALL.map(|engine| step(times, engine));
        show(name, columns.map(|time| format!("{time:.2}")));
    }
    let means = Engine::ALL.map(|engine| {
        let all = loops.iter().map(|(_, times)| step(times, engine));
        geometric_mean(all)
    });
    show("geometric mean", means.map(|mean| format!("{mean:.2}")));
}

fn show_ratios(loops: &[(&str, Times)]) {
    let name = |[engine, other]: [Engine; 2]| format!("{}/{}", engine.name(), other.name());
    show("loop", RATIOS.map(name));
    for (name, times) in loops {
        show(name, RATIOS.map(|pair| ratio(times, pair).to_string()));
    }
    let means = RATIOS.map(|pair| {
        let medians = loops.iter().map(|(_, times)| ratio(times, pair).median);
        geometric_mean(medians)
    });
    show("geometric mean", means.map(|mean| format!("{mean:.3}")));
}

fn show_instructions(loops: &[(&str, Times)]) {
    println!("Loops: instructions a step");
    show("loop", names(COUNTED));
    for (name, _) in loops {
        let counts = COUNTED.map(|engine| count::step(engine, name));
        let counts = counts.map(|count| count.map(|count| format!("{count:.2}")));
        show(name, counts.map(count::shown));
    }
}

/// One loop for more and more steps.
fn against_steps() -> Vec<(u64, Times)> {
    println!("Time against steps, fetch and store: microseconds");
    show("steps", names(Engine::ALL));
    let sheet = fetch_and_store().encode();
    let steps = [62_500, 125_000, 250_000, 500_000, 1_000_000];
    let all = Rounds::measured(FEW, |place| steps.map(|steps| calls(place, &sheet, steps)));
    let growth: Vec<(u64, Times)> = steps.into_iter().zip(all).collect();
    for (steps, times) in &growth {
        let columns = Engine::ALL.map(|engine| times.seconds(engine as usize) * 1e6);
        show(&steps.to_string(), columns.map(|time| format!("{time:.1}")));
    }
    growth
}

/// All spend the fuel and end at the same instruction, whatever the fuel.
fn same_outcomes(sheet: &[u8]) {
    let accepted = Accepted::new(sheet).expect("the loop is accepted");
    for fuel in (0..60).chain([STEPS]) {
        let expected = reference::run(sheet, &[], fuel, LOOP_MEMORY, &mut []);
        assert_eq!((expected.number(), expected.reply()[1]), (12, fuel));
        let same = |number, reply| {
            assert_eq!(Outcome::from_reply(number, reply), Some(expected));
        };
        for Place {
            run, watch, plain, ..
        } in PLACES
        {
            for machine in [run, watch] {
                let mut reply = [0; 5];
                let number = machine(sheet, &[], fuel, &mut [7; LOOP_MEMORY], &mut [], &mut reply);
                same(number, reply);
            }
            let (memory, mut reply) = (&mut [7; LOOP_MEMORY], [0; 5]);
            let number = accepted.run_into(*plain, &[], fuel, memory, &mut [], &mut reply);
            same(number, reply);
        }
    }
}

/// Runs of one step, which are all start and end.
fn start_and_end() {
    println!("Starting and ending: the smallest sheet, checked (but for C), run for one step, the memory cleared: microseconds");
    show("words of memory", names(COUNTED));
    let words = [2, 256, 4_096, MAX_MEMORY];
    let at =
        |place| words.map(|words| COUNTED.map(|engine| engine.call(place, &SMALLEST, 1, words)));
    for (words, rounds) in words.iter().zip(Rounds::measured(FEW, at)) {
        let columns = [0, 1, 2].map(|engine| rounds.seconds(engine) * 1e6);
        show(&words.to_string(), columns.map(|time| format!("{time:.4}")));
    }
}
