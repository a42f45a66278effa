//! What the runnable sheets do when they are run: each thing that they are
//! made for comes up.

use generator::runs::plenty;
use generator::runs::program::runnable;
use generator::Random;
use reference::generic::{Form, Read};
use reference::machine::watched::{Frame, Machine, Value};
use reference::machine::{self, Stop};
use reference::{Kind, Operation, Place, Program};
use std::collections::BTreeMap;

/// How often each thing has come up.
#[derive(Default)]
struct Seen(BTreeMap<&'static str, usize>);

impl Seen {
    fn add(&mut self, name: &'static str, happens: bool) {
        *self.0.entry(name).or_default() += usize::from(happens);
    }
}

/// A machine before a step.
struct View<'a> {
    program: &'a Program,
    machine: &'a Machine<'a>,
    frame: &'a Frame,
}

impl View<'_> {
    fn integer(&self, number: usize) -> Option<u32> {
        match self.frame.variables[number]?.value {
            Value::Integer(word) => Some(word),
            Value::Object(_) => None,
        }
    }

    /// The number of cells of the array in a variable.
    fn size(&self, number: usize) -> Option<usize> {
        match self.frame.variables[number]?.value {
            Value::Object(object) => Some(self.machine.state().objects[object].cells.len()),
            Value::Integer(_) => None,
        }
    }

    fn observe(&self, place: Place, operation: Operation, seen: &mut Seen) {
        match operation {
            Operation::JumpIfZero { test, target } => {
                let back = target <= place.instruction && self.integer(test) == Some(0);
                seen.add("jump back", back);
            }
            Operation::Subtract { left, right, .. } => {
                let (left, right) = (self.integer(left), self.integer(right));
                seen.add("0 − 1", left == Some(0) && right == Some(1));
            }
            Operation::NewArray { to, size } => {
                seen.add("array of size 0", self.integer(size) == Some(0));
                self.observe_made(to, seen);
            }
            Operation::Store { array, index, .. } | Operation::Fetch { array, index, .. } => {
                self.observe_outside(operation, array, seen);
                self.observe_names(operation, array, seen);
                let index = self.integer(index).map(|index| index as usize);
                if let (Some(index), Some(size)) = (index, self.size(array)) {
                    seen.add("index at the end", index == size);
                    seen.add("index past the end", index > size);
                }
            }
            Operation::GetSlot { record, .. } => {
                let formals = self.program.procedures[place.procedure].formals;
                seen.add("slot of a formal", record < formals);
            }
            Operation::Call {
                result,
                procedure,
                first_actual,
            } => {
                self.observe_call(result, procedure, seen);
                let declared = first_actual.into_iter().flat_map(|first| first..);
                let declared = declared.map(|actual| self.declared(actual));
                self.observe_settling(result, procedure, declared, seen);
            }
            _ => {}
        }
    }

    fn observe_made(&self, to: usize, seen: &mut Seen) {
        let inner = self.declared(to).qualified;
        let (nested, generic) = (self.is_nested(inner), self.program.uses_generic(inner));
        seen.add("array of arrays", nested);
        seen.add("array made under ?R", generic);
        seen.add("array of arrays made under ?R", nested && generic);
    }

    /// A variable's declared type, ?R read as the frame does.
    fn declared(&self, variable: usize) -> Read {
        let procedure = &self.program.procedures[self.frame.procedure];
        Read {
            qualified: procedure.variables[variable].inner,
            reading: procedure.instance(self.frame.set),
        }
    }

    /// An array that was made under ?R is used where there is none.
    fn observe_outside(&self, operation: Operation, array: usize, seen: &mut Seen) {
        let Some(Value::Object(object)) = self.frame.variables[array].map(|held| held.value) else {
            return;
        };
        let made = match self.machine.state().objects[object].kind {
            Kind::Array { element } => self.program.uses_generic(element),
            _ => false,
        };
        let outside = made
            && self.program.procedures[self.frame.procedure]
                .bound
                .is_none();
        let stored = matches!(operation, Operation::Store { .. });
        seen.add(
            "stored outside to an array made under ?R",
            outside && stored,
        );
        seen.add(
            "fetched outside from an array made under ?R",
            outside && !stored,
        );
    }

    /// The object in a variable that is declared an array of other elements.
    fn widened(&self, variable: usize) -> Option<usize> {
        let Some(Value::Object(number)) = self.frame.variables[variable].map(|held| held.value)
        else {
            return None;
        };
        let declared = self.program.read(self.declared(variable)).form;
        match (self.machine.state().objects[number].form(), declared) {
            (Form::Array { element }, Form::Array { element: asked }) => {
                (!self.program.equal(element, asked)).then_some(number)
            }
            _ => None,
        }
    }

    /// An array has a second name in the frame, by which less is asked of its
    /// elements.
    fn observe_names(&self, operation: Operation, array: usize, seen: &mut Seen) {
        let object = self.frame.variables[array].map(|held| held.value);
        let second = |other| self.widened(other).map(Value::Object) == object;
        let mut others = (0..self.frame.variables.len()).filter(|&other| other != array);
        let named = object.is_some() && others.any(second);
        let by_second = self.widened(array).is_some();
        let nested = self.is_nested(self.declared(array).qualified);
        if matches!(operation, Operation::Store { .. }) {
            seen.add("stored by the first of two names", named);
            seen.add("array stored by the first of two names", named && nested);
        } else {
            seen.add("fetched by the first of two names", named && !by_second);
            seen.add("fetched by the second of two names", by_second);
            seen.add("array fetched by the second", by_second && nested);
        }
    }

    fn observe_settling(
        &self,
        result: Option<usize>,
        procedure: usize,
        declared: impl Iterator<Item = Read>,
        seen: &mut Seen,
    ) {
        let callee = &self.program.procedures[procedure];
        let Some(bound) = callee.bound else {
            return;
        };
        let caller = &self.program.procedures[self.frame.procedure];
        let settled = self.program.settled(callee, declared.take(callee.formals));
        seen.add("settled by one actual", settled.found.len() == 1);
        seen.add("settled by two actuals", settled.found.len() >= 2);
        let more = settled.reading.rights() != bound.least;
        seen.add("settled to more than the least set", more);
        let own = caller.bound.filter(|own| own.of == bound.of);
        let passed = own.is_some_and(|own| own.instance(self.frame.set) == settled.reading);
        let least = own.is_some_and(|own| own.least == bound.least);
        let itself = self.frame.procedure == procedure;
        seen.add("?R passed on, same least set", passed && least && !itself);
        seen.add("?R passed on, other least set", passed && !least);
        seen.add("?R passed on to itself", passed && itself);
        let given = callee.result.filter(|_| result.is_some());
        let kind = given.map(|given| self.program.qualified[given].kind);
        seen.add("a result of ?R kept", kind == Some(Kind::Generic));
        let array = given.is_some_and(|given| self.program.uses_generic(given));
        seen.add("an array of ?R kept", array && kind != Some(Kind::Generic));
    }

    fn is_nested(&self, qualified: usize) -> bool {
        match self.program.qualified[qualified].kind {
            Kind::Array { element } => {
                let element = &self.program.qualified[element];
                matches!(element.kind, Kind::Array { .. })
            }
            _ => false,
        }
    }

    fn observe_call(&self, result: Option<usize>, procedure: usize, seen: &mut Seen) {
        let callee = &self.program.procedures[procedure];
        let mut frames = self.machine.state().frames.iter();
        seen.add("main called", procedure == 0);
        seen.add(
            "recursion",
            frames.any(|frame| frame.procedure == procedure),
        );
        seen.add("result kept", result.is_some());
        seen.add(
            "result dropped",
            result.is_none() && callee.result.is_some(),
        );
        let rights = |qualified: usize| self.program.qualified[qualified].rights;
        for formal in &callee.variables[..callee.formals] {
            let Some(need) = formal.need.map(rights) else {
                continue;
            };
            let inner = rights(formal.inner);
            seen.add("rights added", !need.includes(&inner));
            seen.add("rights taken", !inner.includes(&need));
        }
    }
}

/// Runs a sheet and gives its stop.
fn observe_run(seed: u64, seen: &mut Seen) -> Stop {
    let mut random = Random::new(seed);
    let sheet = runnable(&mut random).encode();
    let lent = plenty(&mut random, sheet);
    let program = machine::accepted(&lent.sheet, 0).expect("the sheet is accepted");
    let mut machine = Machine::start(&program, lent.resources()).expect("main fits");
    loop {
        if let (Some((place, operation)), Some(frame)) =
            (machine.due(), machine.state().frames.last())
        {
            let view = View {
                program: &program,
                machine: &machine,
                frame,
            };
            view.observe(place, operation, seen);
        }
        if let Err(stop) = machine.step() {
            return stop;
        }
    }
}

/// All that must come up.
const NAMES: [&str; 30] = [
    "jump back",
    "0 − 1",
    "array of size 0",
    "array of arrays",
    "index at the end",
    "index past the end",
    "slot of a formal",
    "main called",
    "recursion",
    "result kept",
    "result dropped",
    "rights added",
    "rights taken",
    "array made under ?R",
    "array of arrays made under ?R",
    "stored outside to an array made under ?R",
    "fetched outside from an array made under ?R",
    "settled by one actual",
    "settled by two actuals",
    "settled to more than the least set",
    "?R passed on, same least set",
    "?R passed on, other least set",
    "?R passed on to itself",
    "a result of ?R kept",
    "an array of ?R kept",
    "stored by the first of two names",
    "array stored by the first of two names",
    "fetched by the first of two names",
    "fetched by the second of two names",
    "array fetched by the second",
];

#[test]
fn runnable_sheets_do_what_they_are_made_for() {
    let mut seen = Seen::default();
    let mut stops: BTreeMap<Stop, usize> = BTreeMap::new();
    let sheets = 2_500;
    for seed in 0..sheets {
        *stops.entry(observe_run(seed, &mut seen)).or_default() += 1;
    }
    println!("{stops:?}");
    println!("{:?}", seen.0);
    assert!(stops[&Stop::Done] * 5 > sheets as usize, "{stops:?}");
    for name in NAMES {
        let count = seen.0.get(name).copied().unwrap_or(0);
        assert!(count >= 20, "{name}: {count}");
    }
}
