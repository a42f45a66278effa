//! What an accepted sheet does with rights names, as far as its records say.

use reference::generic::{Read, Reading};
use reference::{parse, Kind, Operation, Procedure, Program, Rights, Settled};

/// All that must come up in some accepted sheet.
pub const ALL: [&str; 11] = [
    "a rights name that no formal uses",
    "an array of arrays of ?R as a need",
    "settled by one actual",
    "settled by two actuals or more",
    "settled to the least set",
    "settled to more than the least set",
    "?R passed on, same least set",
    "?R passed on, other least set",
    "?R passed on to itself",
    "a result of ?R kept",
    "an array of ?R kept",
];

/// What of it comes up in this one, perhaps more than once.
pub fn seen(sheet: &[u8]) -> Vec<&'static str> {
    let Ok(program) = parse(sheet) else {
        return Vec::new();
    };
    let mut all = Vec::new();
    for procedure in &program.procedures {
        see_formals(&program, procedure, &mut all);
    }
    for call in calls(&program) {
        call.see_settled(&call.settled(), &mut all);
        call.see_kept(&mut all);
    }
    all
}

/// What each call of a procedure with a rights name settles it to.
pub fn settled_sets(program: &Program) -> Vec<Rights> {
    let calls = calls(program).into_iter();
    let named = calls.filter(|call| call.callee.bound.is_some());
    named.map(|call| call.settled().reading.rights()).collect()
}

/// All calls of a program.
fn calls(program: &Program) -> Vec<Call<'_>> {
    let mut all = Vec::new();
    for (number, caller) in program.procedures.iter().enumerate() {
        for instruction in &caller.instructions {
            if let Operation::Call {
                result,
                procedure,
                first_actual,
            } = instruction.operation
            {
                all.push(Call {
                    program,
                    caller,
                    callee: &program.procedures[procedure],
                    of_itself: number == procedure,
                    first_actual,
                    kept: result,
                });
            }
        }
    }
    all
}

fn see_formals(program: &Program, procedure: &Procedure, all: &mut Vec<&'static str>) {
    let needs = procedure.variables.iter().filter_map(|formal| formal.need);
    let uses = needs.filter(|&need| program.uses_generic(need));
    let depths: Vec<usize> = uses.map(|need| depth(program, need)).collect();
    if procedure.bound.is_some() && depths.is_empty() {
        all.push("a rights name that no formal uses");
    }
    if depths.iter().any(|&depth| depth >= 2) {
        all.push("an array of arrays of ?R as a need");
    }
}

/// The number of arrays around what is innermost.
fn depth(program: &Program, qualified: usize) -> usize {
    match program.qualified[qualified].kind {
        Kind::Array { element } => 1 + depth(program, element),
        _ => 0,
    }
}

struct Call<'a> {
    program: &'a Program,
    caller: &'a Procedure,
    callee: &'a Procedure,
    of_itself: bool,
    first_actual: Option<usize>,
    kept: Option<usize>,
}

impl Call<'_> {
    fn settled(&self) -> Settled {
        let actuals = self.first_actual.into_iter().flat_map(|first| first..);
        let declared = actuals.take(self.callee.formals).map(|actual| Read {
            qualified: self.caller.variables[actual].inner,
            reading: self.caller.own(),
        });
        self.program.settled(self.callee, declared)
    }

    fn see_settled(&self, settled: &Settled, all: &mut Vec<&'static str>) {
        let Some(bound) = self.callee.bound else {
            return;
        };
        all.push(match settled.found.len() {
            1 => "settled by one actual",
            _ => "settled by two actuals or more",
        });
        all.push(match settled.reading {
            Reading::Own { .. } if self.of_itself => "?R passed on to itself",
            Reading::Own { least, .. } if least == bound.least => "?R passed on, same least set",
            Reading::Own { .. } => "?R passed on, other least set",
            reading if reading.rights() == bound.least => "settled to the least set",
            _ => "settled to more than the least set",
        });
    }

    fn see_kept(&self, all: &mut Vec<&'static str>) {
        let given = self.callee.result.filter(|_| self.kept.is_some());
        let generic = given.filter(|&given| self.program.uses_generic(given));
        all.extend(generic.map(|given| match depth(self.program, given) {
            0 => "a result of ?R kept",
            _ => "an array of ?R kept",
        }));
    }
}
