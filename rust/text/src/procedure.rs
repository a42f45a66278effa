//! The instructions of a procedure made into records.

use crate::errors::Errors;
use crate::field::Field;
use crate::outline::Outline;
use crate::outlines::Outlines;
use crate::quote::{listed, quoted};
use crate::record::{Record, RecordKind, NONE};
use crate::span::{Error, Span};
use crate::syntax::{Constant, Instruction, Name, TypeLine};

/// What the instructions of a procedure may name.
pub struct Scope<'a> {
    pub outlines: &'a Outlines<'a>,
    pub outline: &'a Outline<'a>,
    pub owner: Owner<'a>,
}

/// The type that a procedure is of.
#[derive(Clone, Copy)]
pub enum Owner<'a> {
    None,
    /// The procedure's line is wrong there.
    Unknown,
    Type(&'a TypeLine<'a>),
}

/// A record with the columns of its parts.
pub struct Encoded {
    pub record: Record,
    pub parts: Vec<(Field, Span)>,
}

/// None is given for what is wrong, which is then told.
impl Scope<'_> {
    pub fn instruction(
        &self,
        instruction: &Instruction,
        span: Span,
        errors: &mut Errors,
    ) -> Option<Encoded> {
        let word = instruction.mnemonic.word.len();
        let mnemonic = Span {
            end: span.start + word,
            ..span
        };
        let mut parts = vec![(Field::Code, mnemonic)];
        let operands = [
            (Field::A, instruction.a),
            (Field::B, instruction.b),
            (Field::C, instruction.c),
        ];
        let mut values = vec![u32::from(instruction.mnemonic.code)];
        for (field, operand) in operands {
            let mut value = NONE;
            if let Some(name) = operand {
                value = self.variable(name, errors)? as u32;
                parts.push((field, name.span));
            }
            values.push(value);
        }
        let (k, k_span) = self.constant(&instruction.k, errors)?;
        parts.extend(k_span.map(|span| (Field::K, span)));
        // A label is at most the number of instructions, which are counted.
        values.push(k as u32);
        if let Constant::Procedure(name) = instruction.k {
            values[2] = self.actuals(k, name, &instruction.actuals, errors)?;
            let actuals = instruction.actuals.iter().enumerate();
            parts.extend(actuals.map(|(number, name)| (Field::Actual(number), name.span)));
        }
        let record = Record::new(RecordKind::Instruction, &values);
        Some(Encoded { record, parts })
    }

    fn variable(&self, name: Name, errors: &mut Errors) -> Option<usize> {
        let number = self.outline.variable(name);
        number.or_else(|| {
            let expected = format!("a variable of {}", self.outline.said());
            self.outlines.unknown(name, &expected, errors)
        })
    }

    /// The field k, and where it is written.
    fn constant(&self, constant: &Constant, errors: &mut Errors) -> Option<(usize, Option<Span>)> {
        let (number, span) = match *constant {
            Constant::Unused => return Some((0, None)),
            Constant::Number { value, span } => (value as usize, span),
            Constant::Label(name) => (self.label(name, errors)?, name.span),
            Constant::Slot(name) => (self.slot(name, errors)?, name.span),
            Constant::Procedure(name) => (self.procedure(name, errors)?, name.span),
        };
        Some((number, Some(span)))
    }

    fn label(&self, name: Name, errors: &mut Errors) -> Option<usize> {
        let number = self.outline.label(name);
        number.or_else(|| {
            let expected = format!("a label of {}", self.outline.said());
            self.outlines.unknown(name, &expected, errors)
        })
    }

    fn slot(&self, name: Name, errors: &mut Errors) -> Option<usize> {
        let owner = match self.owner {
            Owner::Type(owner) => owner,
            Owner::Unknown => return None,
            Owner::None => {
                let procedure = self.outline.said();
                let message = format!(
                    "expected a procedure `of` the type whose slot this is, found {procedure}, which is of none"
                );
                return errors.none(Error::new(name.span, message));
            }
        };
        let mut slots = owner.slots.iter().map(|(slot, _)| slot.word);
        let number = slots.position(|slot| slot == name.word);
        number.or_else(|| {
            let all = listed(owner.slots.iter().map(|(slot, _)| slot.word));
            let all = if all.is_empty() { "it has none" } else { &all };
            let expected = format!("a slot of `{}` ({all})", quoted(owner.name.word));
            self.outlines.unknown(name, &expected, errors)
        })
    }

    fn procedure(&self, name: Name, errors: &mut Errors) -> Option<usize> {
        let number = self.outlines.called(name);
        number.or_else(|| self.outlines.unknown(name, "a procedure", errors))
    }

    /// The field b of a call: its first actual, after which the others follow
    /// in the frame.
    fn actuals(
        &self,
        callee: usize,
        name: Name,
        actuals: &[Name],
        errors: &mut Errors,
    ) -> Option<u32> {
        let formals = self.outlines.procedures[callee].formals;
        let found = actuals.len();
        if let Some(formals) = formals.filter(|&formals| formals != found) {
            let (word, s) = (quoted(name.word), if formals == 1 { "" } else { "s" });
            let message = format!("expected {formals} actual{s} for `{word}`, found {found}");
            return errors.none(Error::new(name.span, message));
        }
        let Some(&first) = actuals.first() else {
            return Some(NONE);
        };
        let first = self.variable(first, errors)?;
        for (number, &actual) in (first..).zip(actuals) {
            if self.variable(actual, errors)? != number {
                return errors.none(self.not_next(number, actual));
            }
        }
        Some(first as u32)
    }

    /// An actual that is not the variable of the number, which follows the
    /// actual before it.
    fn not_next(&self, number: usize, actual: Name) -> Error {
        let variables = &self.outline.variables;
        let (before, found) = (quoted(variables[number - 1].word), quoted(actual.word));
        let expected = match variables.get(number) {
            Some(due) => format!("`{}`, the variable after `{before}`", quoted(due.word)),
            None => format!("none after `{before}`, the last variable"),
        };
        let message = format!("expected {expected}, found `{found}`");
        Error::new(actual.span, message)
    }
}
