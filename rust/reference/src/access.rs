//! The access rules: refusals 6 to 9, 20 and 21, record by record in sheet
//! order. Where open stands and whether need and inner agree is asked of the
//! types as they stand; instructions read ?R as their procedure's own.

// A fault is made once in a check, and tells all that its rule looked at.
#![allow(clippy::result_large_err)]

use crate::fault::{Broken, Detail, Due, End, Fault, Form, Holder, Site};
use crate::generic::{self, Read, Reading, Type};
use crate::program::{Instruction, Kind, Operation, Procedure, Program, Rights, Variable};
use crate::refusal::{Reason, Refusal};

/// Applies the access rules to a well-formed program.
pub fn check(program: &Program) -> Result<(), Refusal> {
    examine(program).map_err(|fault| fault.refusal)
}

/// The same, and tells what the rule that does not hold looked at.
pub fn examine(program: &Program) -> Result<(), Fault> {
    for declared in &program.types {
        for (number, &slot) in declared.slots.iter().enumerate() {
            closed(program, slot, Holder::Slot(number), declared.place)?;
        }
    }
    for qualified in &program.qualified {
        if let Kind::Array { element } = qualified.kind {
            closed(program, element, Holder::Element, qualified.place)?;
        }
    }
    for (number, procedure) in program.procedures.iter().enumerate() {
        if let Some(result) = procedure.result {
            closed(program, result, Holder::Result, procedure.place)?;
        }
        let rules = Rules {
            program,
            number,
            procedure,
        };
        for variable in &procedure.variables {
            rules.variable(variable)?;
        }
        for instruction in &procedure.instructions {
            rules.instruction(instruction)?;
        }
    }
    Ok(())
}

/// Refuses the record at the place with 6 if the qualified type has open.
fn closed(program: &Program, qualified: usize, holder: Holder, place: usize) -> Result<(), Fault> {
    if program.qualified[qualified].rights.contains(Rights::OPEN) {
        let detail = Detail::Open { holder, qualified };
        return Err(Broken::new(Reason::MisplacedOpen, detail).at(place));
    }
    Ok(())
}

/// The rules for the variables and instructions of one procedure.
struct Rules<'a> {
    program: &'a Program,
    number: usize,
    procedure: &'a Procedure,
}

impl Rules<'_> {
    fn variable(&self, variable: &Variable) -> Result<(), Fault> {
        let Variable { place, inner, need } = *variable;
        if let Some(need) = need {
            closed(self.program, need, Holder::Need, place)?;
        }
        let owned = self.is_owned(inner);
        if !owned {
            closed(self.program, inner, Holder::Inner, place)?;
        }
        let Some(need) = need else {
            return Ok(());
        };
        let agrees = match owned {
            true => self.is_owned(need),
            false => self.program.equal(Read::unread(need), Read::unread(inner)),
        };
        if !agrees {
            let detail = Detail::Need { need, inner, owned };
            return Err(Broken::new(Reason::NeedMismatch, detail).at(place));
        }
        Ok(())
    }

    fn instruction(&self, instruction: &Instruction) -> Result<(), Fault> {
        self.operation(&instruction.operation)
            .map_err(|broken| broken.at(instruction.place))
    }

    /// Within an operation: return form, kinds, right, then movements.
    fn operation(&self, operation: &Operation) -> Result<(), Broken> {
        match *operation {
            Operation::Set { to, .. } | Operation::Take { to } => self.integer(to),
            Operation::Put { from } => self.integer(from),
            Operation::JumpIfZero { test, .. } => self.integer(test),
            Operation::Add { to, left, right }
            | Operation::Subtract { to, left, right }
            | Operation::Less { to, left, right } => {
                self.integer(to)?;
                self.integer(left)?;
                self.integer(right)
            }
            Operation::Bind { to, from } => self.movement(self.site(from), self.site(to)),
            Operation::NewArray { .. }
            | Operation::Fetch { .. }
            | Operation::Store { .. }
            | Operation::Size { .. } => self.array_operation(operation),
            Operation::NewRecord { .. } | Operation::GetSlot { .. } | Operation::SetSlot { .. } => {
                self.record_operation(operation)
            }
            Operation::Call {
                result,
                procedure,
                first_actual,
            } => self.call(result, procedure, first_actual),
            Operation::Return { value } => self.return_value(value),
        }
    }

    fn array_operation(&self, operation: &Operation) -> Result<(), Broken> {
        match *operation {
            // A new array has all rights and the element of its variable.
            Operation::NewArray { to, size } => {
                self.element(to)?;
                self.integer(size)
            }
            Operation::Fetch { to, array, index } => {
                let element = self.element(array)?;
                self.integer(index)?;
                self.right(array, Rights::FETCH)?;
                self.movement(element, self.site(to))
            }
            Operation::Store { array, index, from } => {
                let element = self.element(array)?;
                self.integer(index)?;
                self.right(array, Rights::STORE)?;
                self.movement(self.site(from), element)
            }
            Operation::Size { to, array } => {
                self.element(array)?;
                self.right(array, Rights::SIZE)?;
                self.integer(to)
            }
            _ => Ok(()),
        }
    }

    fn record_operation(&self, operation: &Operation) -> Result<(), Broken> {
        match *operation {
            Operation::NewRecord { to } => self.new_record(to),
            Operation::GetSlot { to, record, slot } => {
                self.owner_type(record)?;
                self.right(record, Rights::OPEN)?;
                self.movement(self.slot(record, slot)?, self.site(to))
            }
            Operation::SetSlot { record, slot, from } => {
                self.owner_type(record)?;
                self.right(record, Rights::OPEN)?;
                self.movement(self.site(from), self.slot(record, slot)?)
            }
            _ => Ok(()),
        }
    }

    /// A new record has all rights, so that only its type can differ; but
    /// nothing except ?R reaches ?R.
    fn new_record(&self, to: usize) -> Result<(), Broken> {
        self.owner_type(to)?;
        match self.type_of(to).form {
            generic::Form::Generic { .. } => {
                let detail = Detail::NewGeneric { variable: to };
                Err(Broken::new(Reason::MissingRight, detail))
            }
            _ => Ok(()),
        }
    }

    /// Actuals move to needs in their order; a kept result comes last. Needs
    /// and result are read with what the call settles.
    fn call(
        &self,
        kept: Option<usize>,
        procedure: usize,
        first_actual: Option<usize>,
    ) -> Result<(), Broken> {
        let callee = &self.program.procedures[procedure];
        let actuals = first_actual.into_iter().flat_map(|first| first..);
        let actuals = actuals.take(callee.formals);
        let reading = self.settle(procedure, actuals.clone())?;
        if kept.is_some() && callee.result.is_none() {
            return Err(form(Form::NothingToKeep { procedure }));
        }
        let needs = callee.variables.iter().filter_map(|formal| formal.need);
        for (formal, (actual, qualified)) in actuals.zip(needs).enumerate() {
            let to = Site {
                end: End::Need { procedure, formal },
                declared: Read { qualified, reading },
            };
            self.movement(self.site(actual), to)?;
        }
        match (callee.result, kept) {
            (Some(result), Some(to)) => {
                self.movement(result_site(procedure, result, reading), self.site(to))
            }
            _ => Ok(()),
        }
    }

    /// What ?R of the procedure called is settled to: 20, then 21.
    fn settle(
        &self,
        procedure: usize,
        actuals: impl Iterator<Item = usize>,
    ) -> Result<Reading, Broken> {
        let callee = &self.program.procedures[procedure];
        let actuals = actuals.map(|actual| self.site(actual).declared);
        let settled = self.program.settled(callee, actuals);
        if settled.is_unsettled() {
            let differing = settled.differing();
            let detail = Detail::Unsettled {
                procedure,
                differing,
            };
            return Err(Broken::new(Reason::Unsettled, detail));
        }
        if settled.is_short() {
            let settled = settled.reading;
            let detail = Detail::Short { procedure, settled };
            return Err(Broken::new(Reason::Short, detail));
        }
        Ok(settled.reading)
    }

    fn return_value(&self, value: Option<usize>) -> Result<(), Broken> {
        match (value, self.procedure.result) {
            (None, None) => Ok(()),
            (Some(value), Some(result)) => {
                let result = result_site(self.number, result, self.procedure.own());
                self.movement(self.site(value), result)
            }
            (None, Some(_)) => Err(form(Form::NothingReturned)),
            (Some(_), None) => Err(form(Form::TooMuchReturned)),
        }
    }

    /// The type of a variable, with ?R as the procedure's own.
    fn site(&self, variable: usize) -> Site {
        Site {
            end: End::Variable(variable),
            declared: Read {
                qualified: self.procedure.variables[variable].inner,
                reading: self.procedure.own(),
            },
        }
    }

    fn type_of(&self, variable: usize) -> Type {
        self.program.read(self.site(variable).declared)
    }

    fn movement(&self, from: Site, to: Site) -> Result<(), Broken> {
        let outcome = self.program.movement(from.declared, to.declared);
        outcome.map_err(|reason| Broken::new(reason, Detail::Movement { from, to }))
    }

    fn integer(&self, variable: usize) -> Result<(), Broken> {
        match self.type_of(variable).form {
            generic::Form::Integer => Ok(()),
            _ => Err(wrong_kind(variable, Due::Integer)),
        }
    }

    /// The element of an array variable.
    fn element(&self, variable: usize) -> Result<Site, Broken> {
        match self.type_of(variable).form {
            generic::Form::Array { element } => Ok(Site {
                end: End::Element { array: variable },
                declared: element,
            }),
            _ => Err(wrong_kind(variable, Due::Array)),
        }
    }

    /// The variable is of the owner's type; ?R is of its bound's base.
    fn owner_type(&self, variable: usize) -> Result<(), Broken> {
        let declared = self.type_of(variable).form.declared();
        if declared.is_some() && declared == self.procedure.owner {
            Ok(())
        } else {
            Err(wrong_kind(variable, Due::Owner))
        }
    }

    /// Whether a type, as it stands, is the owner's: ?R is never amplified.
    fn is_owned(&self, qualified: usize) -> bool {
        match (self.program.qualified[qualified].kind, self.procedure.owner) {
            (Kind::Record { of }, Some(owner)) => of == owner,
            _ => false,
        }
    }

    fn right(&self, variable: usize, right: usize) -> Result<(), Broken> {
        if self.type_of(variable).rights.contains(right) {
            Ok(())
        } else {
            let detail = Detail::Right { variable, right };
            Err(Broken::new(Reason::MissingRight, detail))
        }
    }

    /// A slot of the owner's type, which the record has.
    fn slot(&self, record: usize, slot: usize) -> Result<Site, Broken> {
        let owner = self.procedure.owner;
        let owner = owner.ok_or_else(|| wrong_kind(record, Due::Owner))?;
        Ok(Site {
            end: End::Slot { record, slot },
            declared: Read::unread(self.program.types[owner].slots[slot]),
        })
    }
}

fn wrong_kind(variable: usize, due: Due) -> Broken {
    Broken::new(Reason::WrongKind, Detail::Kind { variable, due })
}

fn form(form: Form) -> Broken {
    Broken::new(Reason::WrongKind, Detail::Form(form))
}

fn result_site(procedure: usize, qualified: usize, reading: Reading) -> Site {
    Site {
        end: End::Result { procedure },
        declared: Read { qualified, reading },
    }
}
