//! The pass for calls, record by record: ?R where it may not be used, and the
//! fields of calls that wait for the procedure called.

use crate::program::{Instruction, Operation, Procedure, Program};
use crate::refusal::{Reason, Refusal};

/// Goes through all types, then through each procedure: its PR, its VRs, its
/// calls.
pub fn check(program: &Program) -> Result<(), Refusal> {
    for declared in &program.types {
        within(program, &declared.slots, declared.place)?;
    }
    for procedure in &program.procedures {
        if procedure.bound.is_none() {
            check_uses(program, procedure)?;
        }
        for instruction in &procedure.instructions {
            check_call(program, procedure, instruction)?;
        }
    }
    Ok(())
}

/// Without a GN neither the result nor a variable uses ?R.
fn check_uses(program: &Program, procedure: &Procedure) -> Result<(), Refusal> {
    within(program, procedure.result.as_slice(), procedure.place)?;
    for variable in &procedure.variables {
        within(program, &[variable.inner], variable.place)?;
        within(program, variable.need.as_slice(), variable.place)?;
    }
    Ok(())
}

/// Refuses the record at the place with 5 if a type that it names uses ?R.
fn within(program: &Program, named: &[usize], place: usize) -> Result<(), Refusal> {
    let mut named = named.iter();
    match named.any(|&qualified| program.uses_generic(qualified)) {
        true => Err(Refusal::new(Reason::OutOfRange, place)),
        false => Ok(()),
    }
}

/// The procedure called exists, and the actuals are variables of the caller.
fn check_call(
    program: &Program,
    caller: &Procedure,
    instruction: &Instruction,
) -> Result<(), Refusal> {
    let Operation::Call {
        procedure,
        first_actual,
        ..
    } = instruction.operation
    else {
        return Ok(());
    };
    let callee = program.procedures.get(procedure);
    match callee.is_some_and(|callee| actuals_fit(caller, callee, first_actual)) {
        true => Ok(()),
        false => Err(Refusal::new(Reason::OutOfRange, instruction.place)),
    }
}

/// No first actual exactly if there are no formals; else one variable of the
/// caller for each formal.
fn actuals_fit(caller: &Procedure, callee: &Procedure, first_actual: Option<usize>) -> bool {
    match first_actual {
        None => callee.formals == 0,
        Some(first) => callee.formals > 0 && first + callee.formals <= caller.variables.len(),
    }
}
