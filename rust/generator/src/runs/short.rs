//! Short accepted sheets that run to their end in a few steps: what the prover
//! can compute whole.
//!
//! A sheet begins as a main that calls a maker, beside a worker; then it grows
//! by instructions drawn at random, each of which stays if the sheet is still
//! accepted, still ends, and still short. Edition 2 has a family of its own.

use super::Run;
use crate::operations::{
    bind, call, fetch, get_slot, give_back, leave, new_array, new_record, set, set_slot, store,
};
use crate::random::Random;
use crate::records::{InstructionRecord, ARRAY_ALL, FETCH, NONE, OPEN};
use crate::second_edition::into_second_edition;
use crate::sheet::{Procedure, Sheet, SheetBuilder};
use reference::machine::{accepted, watched};
use reference::Stop;

const MOST_BYTES: usize = 260;
const MOST_STEPS: u64 = 18;
/// How many instructions are drawn.
const DRAWN: usize = 100;

const CALL: u8 = 2;
const READ: u32 = 1 << 1;
const AMEND: u32 = 1 << 2;

const INT: u8 = 0;
const BOTH: u8 = 1;
const OPENED: u8 = 2;
const READABLE: u8 = 3;
const ARRAY: u8 = 4;
const READER: u8 = 5;
const GENERIC: u8 = 6;

/// A short sheet of edition 1 and what it is run with.
pub fn short(random: &mut Random) -> Run {
    lent(&grown(random))
}

/// A short sheet of edition 2 and what it is run with.
pub fn short_in_second_edition(random: &mut Random) -> Run {
    let mut sheet = grown(random);
    into_second_edition(random, &mut sheet);
    lent(&sheet)
}

fn grown(random: &mut Random) -> Sheet {
    let mut sheet = beginning(random);
    for _ in 0..DRAWN {
        let longer = longer(random, &sheet);
        if let Some(longer) = longer.filter(|longer| ends_soon(&lent(longer))) {
            sheet = longer;
        }
    }
    sheet
}

fn lent(sheet: &Sheet) -> Run {
    Run {
        sheet: sheet.encode(),
        input: vec![2, 0],
        fuel: 40,
        memory_words: 60,
        output: vec![0; 2],
    }
}

/// Whether the sheet is short, accepted, and done in a few steps.
fn ends_soon(run: &Run) -> bool {
    let Ok(program) = accepted(&run.sheet, run.memory_words) else {
        return false;
    };
    let Ok(mut machine) = watched::Machine::start(&program, run.resources()) else {
        return false;
    };
    let done = machine.finish() == Stop::Done;
    done && machine.state().steps <= MOST_STEPS && run.sheet.len() <= MOST_BYTES
}

/// One type with a slot, the types of variables, main, a maker and a worker.
fn beginning(random: &mut Random) -> Sheet {
    let slot = [INT, READABLE][random.below(2)];
    let element = [BOTH, READABLE][random.below(2)];
    let variables = [BOTH, INT, READABLE, ARRAY, READER];
    let main = Procedure::main().variables(&variables);
    // An array of one cell, and its index, for half of the sheets.
    let main = match random.one_in(2) {
        true => main.body(&[set(1, 1), new_array(3, 1), set(1, 0)]),
        false => main,
    };
    let maker = Procedure::new(CALL, BOTH).variable(OPENED);
    SheetBuilder::new()
        .record_type(2, &[slot])
        .integer()
        .record(CALL, READ | AMEND)
        .record(CALL, OPEN | READ | AMEND)
        .record(CALL, READ)
        .array(element, ARRAY_ALL)
        .array(READABLE, FETCH)
        .generic()
        .procedure(main.body(&[call(0, NONE, 1), leave()]))
        .procedure(maker.body(&[new_record(0), give_back(0)]))
        .procedure(worker(random))
        .build()
}

/// A procedure with a formal and another variable: of the type's module and
/// amplified, of no module, or with a rights name.
fn worker(random: &mut Random) -> Procedure {
    let worker = match random.below(4) {
        0 => Procedure::new(CALL, READABLE).formal(OPENED, READABLE),
        1 => Procedure::new(0, READABLE).formal(READABLE, READABLE),
        2 => Procedure::new(0, READER).formal(READER, READER),
        _ => Procedure::new(0, GENERIC)
            .bound(CALL, READ)
            .formal(GENERIC, GENERIC),
    };
    let variable = [BOTH, READABLE, GENERIC][random.below(3)];
    let variable = match (worker.bound, variable) {
        (None, GENERIC) => READABLE,
        (_, variable) => variable,
    };
    worker.variable(variable).body(&[give_back(0)])
}

/// The sheet with one more instruction, before the return of a procedure.
fn longer(random: &mut Random, sheet: &Sheet) -> Option<Sheet> {
    let mut longer = sheet.clone();
    let number = random.below(longer.procedures.len());
    let procedure = &mut longer.procedures[number];
    let instruction = instruction(random, procedure)?;
    let place = random.below(procedure.instructions.len());
    procedure.instructions.insert(place, instruction);
    longer.seal();
    Some(longer)
}

/// An instruction whose operands may fit: None if there are none.
fn instruction(random: &mut Random, procedure: &Procedure) -> Option<InstructionRecord> {
    let mut of = |types: &[u8]| {
        let variables = (0..).zip(&procedure.variables);
        let fitting = variables.filter(|(_, variable)| types.contains(&variable.inner));
        let fitting: Vec<u8> = fitting.map(|(number, _)| number).collect();
        random.pick(&fitting)
    };
    let integer = of(&[INT]);
    let (array, second) = (of(&[ARRAY, READER]), of(&[ARRAY, READER]));
    let opened = of(&[OPENED]);
    let records = [BOTH, READABLE, OPENED, GENERIC];
    let (record, other) = (of(&records)?, of(&records)?);
    // What seldom fits is drawn more often.
    Some(match random.below(14) {
        0 => set(integer?, random.below(2) as u16),
        1 => bind(record, other),
        2 => bind(array?, second?),
        3 => new_array(array?, integer?),
        4..=6 => fetch(record, array?, integer?),
        7..=9 => store(array?, integer?, record),
        10 => get_slot(record, opened?, 0),
        11 => set_slot(opened?, record, 0),
        _ => {
            let actual = [Some(record), array][random.below(2)]?;
            let kept = [Some(record), array, Some(NONE)][random.below(3)]?;
            call(kept, actual, 2)
        }
    })
}
