//! A procedure as its lines say it.

use crate::errors::Errors;
use crate::names::ProcedureNames;
use crate::outlines::{not_new, words};
use crate::quote::quoted;
use crate::span::{Error, Span};
use crate::syntax::{Bound, Instruction, Name, ProcedureLine, Qualified, VariableLine};
use std::collections::hash_map::Entry;
use std::collections::HashMap;

/// Counts that the fields of a PR record can hold; 255 names no variable.
const MAX_VARIABLES: usize = 255;
const MAX_INSTRUCTIONS: usize = 65_535;

pub struct Outline<'a> {
    /// None where its line could not be read.
    pub name: Option<Name<'a>>,
    pub span: Span,
    pub bound: Option<Box<Bound<'a>>>,
    pub owner: Option<Name<'a>>,
    pub result: Option<Qualified<'a>>,
    /// How many; None where a line of them may be wrong.
    pub formals: Option<usize>,
    pub lines: Vec<VariableLine<'a>>,
    /// All variables, formals first.
    pub variables: Vec<Name<'a>>,
    numbers: HashMap<&'a str, usize>,
    /// Each label with the instruction that follows it, and its line.
    labels: HashMap<&'a str, (usize, usize)>,
    /// The first label that no instruction has followed yet.
    waiting: Option<Name<'a>>,
    /// None where a line could not be read.
    pub instructions: Vec<Option<(Instruction<'a>, Span)>>,
    /// Whether it is told that variables are not in their place.
    misplaced: bool,
    /// Whether a line that may have been anything came after instructions.
    broken: bool,
}

impl<'a> Outline<'a> {
    pub fn new(line: ProcedureLine<'a>, span: Span) -> Self {
        Outline {
            name: Some(line.name),
            bound: line.bound,
            owner: line.owner,
            result: line.result,
            formals: Some(0),
            ..Outline::unread(span)
        }
    }

    /// A procedure whose line could not be read.
    pub fn unread(span: Span) -> Self {
        Outline {
            name: None,
            span,
            bound: None,
            owner: None,
            result: None,
            formals: None,
            lines: Vec::new(),
            variables: Vec::new(),
            numbers: HashMap::new(),
            labels: HashMap::new(),
            waiting: None,
            instructions: Vec::new(),
            misplaced: false,
            broken: false,
        }
    }

    /// The procedure in a message.
    pub fn said(&self) -> String {
        match self.name {
            Some(name) => format!("`{}`", quoted(name.word)),
            None => String::from("the procedure"),
        }
    }

    pub fn add_variables(&mut self, line: VariableLine<'a>, span: Span, errors: &mut Errors) {
        let is_formal = line.need.is_some();
        self.check_place(is_formal, span, errors);
        if is_formal {
            self.formals = self.formals.map(|count| count + line.names.len());
        }
        for &name in &line.names {
            let number = self.variables.len();
            match self.numbers.entry(name.word) {
                Entry::Vacant(place) => {
                    place.insert(number);
                    self.variables.push(name);
                    limit(number + 1, MAX_VARIABLES, "variables", name.span, errors);
                }
                Entry::Occupied(first) => {
                    let first = self.variables[*first.get()];
                    errors.add(not_new(name, first.span.line));
                }
            }
        }
        self.lines.push(line);
    }

    /// Formals come first and instructions last; the first line out of its
    /// place is told, which may have moved all others.
    fn check_place(&mut self, is_formal: bool, span: Span, errors: &mut Errors) {
        let after_others = self.lines.last().is_some_and(|line| line.need.is_none());
        let message = if !self.instructions.is_empty() {
            "expected variables before the instructions of their procedure, found them after"
        } else if is_formal && after_others {
            "expected formals before all other variables, found them after"
        } else {
            return;
        };
        if !self.misplaced {
            errors.add(Error::new(span, message));
        }
        self.misplaced = true;
    }

    pub fn add_label(&mut self, label: Name<'a>, errors: &mut Errors) {
        let next = self.instructions.len();
        match self.labels.entry(label.word) {
            Entry::Vacant(place) => {
                place.insert((next, label.span.line));
                self.waiting = self.waiting.or(Some(label));
            }
            Entry::Occupied(first) => errors.add(not_new(label, first.get().1)),
        }
    }

    pub fn add_instruction(
        &mut self,
        instruction: Instruction<'a>,
        span: Span,
        errors: &mut Errors,
    ) {
        self.instructions.push(Some((instruction, span)));
        self.waiting = None;
        let count = self.instructions.len();
        limit(count, MAX_INSTRUCTIONS, "instructions", span, errors);
    }

    /// An instruction that could not be read.
    pub fn add_unread(&mut self) {
        self.instructions.push(None);
        self.waiting = None;
    }

    /// A line that may have been anything: variables before the first
    /// instruction, an instruction or the next procedure after it.
    pub fn add_unknown(&mut self) {
        if self.instructions.is_empty() && self.waiting.is_none() {
            self.formals = None;
        } else {
            self.add_unread();
            self.broken = true;
        }
    }

    /// Whether variables that follow may be those of another procedure.
    pub fn may_have_ended(&self) -> bool {
        self.broken
    }

    /// A label needs an instruction after it.
    pub fn check_end(&self, errors: &mut Errors) {
        if let Some(label) = self.waiting {
            let word = quoted(label.word);
            let message = format!("expected an instruction after the label `{word}`, found none");
            errors.add(Error::new(label.span, message));
        }
    }

    pub fn variable(&self, name: Name) -> Option<usize> {
        self.numbers.get(name.word).copied()
    }

    pub fn label(&self, name: Name) -> Option<usize> {
        self.labels.get(name.word).map(|&(next, _)| next)
    }

    pub fn names(&self) -> ProcedureNames {
        let name = self.name.map_or("", |name| name.word);
        ProcedureNames {
            name: String::from(name),
            variables: words(&self.variables),
        }
    }
}

/// One error where the count is first above the most.
pub fn limit(count: usize, most: usize, what: &str, span: Span, errors: &mut Errors) {
    if count == most + 1 {
        errors.add(Error::new(span, too_many(most, what)));
    }
}

pub fn too_many(most: usize, what: &str) -> String {
    format!("expected at most {most} {what}, found one more")
}
