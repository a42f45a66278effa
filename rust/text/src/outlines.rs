//! The statements of a text, put where they belong.

use crate::edition::{OfText, EDITION};
use crate::errors::Errors;
use crate::grammar::line;
use crate::mnemonic::Mnemonic;
use crate::names::{Names, TypeNames};
use crate::outline::{limit, too_many, Outline};
use crate::quote::quoted;
use crate::span::{Error, Span};
use crate::syntax::{Body, Line, Name, ProcedureLine, QualLine, Statement, TypeLine, Wrong};
use reference::layout::MAX_SLOTS;
use reference::Edition;
use std::collections::{HashMap, HashSet};

/// Counts that their fields can hold. Which of them are in range is the
/// checker's to say; named rights and slots have no more room in a record.
/// A field of one byte names the types from 2 to 254; 255 is the base of ?R.
const MAX_TYPES: usize = 253;
const MAX_PROCEDURES: usize = 255;

/// The words that lines other than instructions and `edition` begin with.
const DECLARATIONS: [&str; 5] = ["type", "qual", "procedure", "formal", "variable"];

#[derive(Default)]
pub struct Outlines<'a> {
    edition: OfText,
    pub types: Vec<(TypeLine<'a>, Span)>,
    pub quals: Vec<(QualLine<'a>, Span)>,
    pub procedures: Vec<Outline<'a>>,
    /// Types and qualified types have their names in common.
    meanings: HashMap<&'a str, Meaning>,
    /// The procedures by their names.
    called: HashMap<&'a str, usize>,
    /// The words of declarations that are wrong: a name among them may be
    /// declared, and is no further error.
    perhaps: HashSet<&'a str>,
    /// Whether it is told that a line has no procedure.
    orphaned: bool,
}

/// What a name of types means, by its number in the order of the text.
#[derive(Clone, Copy)]
pub enum Meaning {
    Type(usize),
    Qual(usize),
}

impl<'a> Outlines<'a> {
    /// All lines, or those up to the last error that is told.
    pub fn read(text: &'a str, errors: &mut Errors) -> Self {
        let mut all = Outlines::default();
        for (number, text) in text.lines().enumerate() {
            all.line(line(text, number + 1), errors);
            if errors.is_full() {
                break;
            }
        }
        all
    }

    fn line(&mut self, line: Line<'a>, errors: &mut Errors) {
        for label in line.labels {
            if let Some(procedure) = self.procedure(label.span, errors) {
                procedure.add_label(label, errors);
            }
        }
        match line.body {
            Body::Empty => (),
            Body::Statement(statement, span) => self.statement(statement, span, errors),
            Body::Wrong(wrong) => self.wrong(wrong, errors),
        }
    }

    /// The procedure that the line belongs to. That there is none is told
    /// once.
    fn procedure(&mut self, span: Span, errors: &mut Errors) -> Option<&mut Outline<'a>> {
        if self.procedures.is_empty() && !self.orphaned {
            self.orphaned = true;
            let message = "expected a `procedure` line before this one, found none";
            errors.add(Error::new(span, message));
        }
        self.procedures.last_mut()
    }

    pub fn edition(&self) -> Edition {
        self.edition.edition()
    }

    fn statement(&mut self, statement: Statement<'a>, span: Span, errors: &mut Errors) {
        match statement {
            Statement::Edition(edition) => return self.edition.say(edition, span, errors),
            Statement::Type(line) => self.add_type(line, span, errors),
            Statement::Qual(line) => {
                self.mean(line.name, Meaning::Qual(self.quals.len()), errors);
                self.quals.push((line, span));
            }
            Statement::Procedure(line) => self.add_procedure(line, span, errors),
            Statement::Variables(line) => {
                // The line that could not be read was the procedure's head.
                if self.procedures.last().is_some_and(Outline::may_have_ended) {
                    self.procedures.push(Outline::unread(span));
                }
                if let Some(procedure) = self.procedure(span, errors) {
                    procedure.add_variables(line, span, errors);
                }
            }
            Statement::Instruction(instruction) => {
                if let Some(procedure) = self.procedure(span, errors) {
                    procedure.add_instruction(instruction, span, errors);
                }
            }
        }
        self.edition.begin();
    }

    fn add_type(&mut self, mut line: TypeLine<'a>, span: Span, errors: &mut Errors) {
        check_rights(&line.rights, self.edition(), errors);
        let slots: Vec<Name> = line.slots.iter().map(|&(name, _)| name).collect();
        check_names(&slots, MAX_SLOTS, &too_many(MAX_SLOTS, "slots"), errors);
        let most_rights = self.edition().most_named_rights();
        let late_rights = line.rights.iter().skip(most_rights);
        let late = late_rights.chain(slots.iter().skip(MAX_SLOTS));
        self.perhaps.extend(late.map(|name| name.word));
        line.rights.truncate(most_rights);
        line.slots.truncate(MAX_SLOTS);
        if self.mean(line.name, Meaning::Type(self.types.len()), errors) {
            self.types.push((line, span));
            limit(self.types.len(), MAX_TYPES, "types", span, errors);
        } else {
            let names = line.rights.iter().chain(&slots);
            self.perhaps.extend(names.map(|name| name.word));
        }
    }

    fn add_procedure(&mut self, line: ProcedureLine<'a>, span: Span, errors: &mut Errors) {
        let (name, number) = (line.name, self.procedures.len());
        if let Some(bound) = line.bound.as_ref().filter(|_| number == 0) {
            let message = "expected no `for` on the first procedure, which is main, found one";
            errors.add(Error::new(bound.span, message));
        }
        self.procedures.push(Outline::new(line, span));
        limit(number + 1, MAX_PROCEDURES, "procedures", span, errors);
        let first = *self.called.entry(name.word).or_insert(number);
        if first < number {
            // Which of the two a call means is not known.
            self.procedures[first].formals = None;
            let line = self.procedures[first].span.line;
            errors.add(not_new(name, line));
        }
    }

    /// Gives the name its meaning unless it has one.
    fn mean(&mut self, name: Name<'a>, meaning: Meaning, errors: &mut Errors) -> bool {
        if matches!(name.word, "integer" | "tray") {
            let word = name.word;
            let message =
                format!("expected a new name, found `{word}`, which has a meaning already");
            errors.add(Error::new(name.span, message));
            return false;
        }
        let Some(&first) = self.meanings.get(name.word) else {
            self.meanings.insert(name.word, meaning);
            return true;
        };
        errors.add(not_new(name, self.line_of(first)));
        false
    }

    /// The line that gives the meaning.
    pub fn line_of(&self, meaning: Meaning) -> usize {
        match meaning {
            Meaning::Type(number) => self.types[number].1.line,
            Meaning::Qual(number) => self.quals[number].1.line,
        }
    }

    /// A line that could not be read: one error, and none for what it was to
    /// declare.
    fn wrong(&mut self, wrong: Wrong<'a>, errors: &mut Errors) {
        let line = wrong.error.span;
        errors.add(wrong.error);
        let word = wrong.words.first().copied().unwrap_or_default();
        let procedure = self.procedures.last_mut();
        let is_instruction = Mnemonic::by_word(word).is_some();
        match is_instruction || DECLARATIONS.contains(&word) {
            true => self.edition.begin(),
            false => self.edition.miss(),
        }
        if is_instruction {
            procedure.into_iter().for_each(Outline::add_unread);
            return;
        }
        self.perhaps.extend(wrong.words);
        match (word, procedure) {
            ("type" | "qual" | EDITION, _) => (),
            ("procedure", _) => self.procedures.push(Outline::unread(line)),
            // It may have been a procedure's.
            (_, None) => self.orphaned = true,
            ("formal" | "variable", Some(procedure)) => procedure.formals = None,
            (_, Some(procedure)) => procedure.add_unknown(),
        }
    }

    pub fn meaning(&self, name: Name) -> Option<Meaning> {
        self.meanings.get(name.word).copied()
    }

    pub fn called(&self, name: Name) -> Option<usize> {
        self.called.get(name.word).copied()
    }

    /// An error for a name that means nothing where it stands.
    pub fn unknown<T>(&self, name: Name, expected: &str, errors: &mut Errors) -> Option<T> {
        if self.perhaps.contains(name.word) {
            return None;
        }
        let found = quoted(name.word);
        let message = format!("expected {expected}, found `{found}`");
        errors.none(Error::new(name.span, message))
    }

    pub fn names(&self) -> Names {
        let types = self.types.iter().map(|(line, _)| TypeNames {
            name: String::from(line.name.word),
            rights: words(&line.rights),
            slots: line.slots.iter().map(|(n, _)| n.word.into()).collect(),
        });
        Names {
            types: types.collect(),
            procedures: self.procedures.iter().map(Outline::names).collect(),
        }
    }
}

pub fn words(names: &[Name]) -> Vec<String> {
    names.iter().map(|name| String::from(name.word)).collect()
}

/// The rights of a `type` line.
fn check_rights(rights: &[Name], edition: Edition, errors: &mut Errors) {
    let most = edition.most_named_rights();
    let mut message = too_many(most, "named rights");
    if edition == Edition::First {
        let allowed = Edition::Second.most_named_rights();
        message += &format!(
            ": the text is of edition 1, and `edition 2` as its first line allows {allowed}"
        );
    }
    check_names(rights, most, &message, errors);
    let open = rights.iter().find(|right| right.word == "open");
    if let Some(open) = open {
        let message = "expected a right of the type's own, found `open`, a right of every type";
        errors.add(Error::new(open.span, message));
    }
}

/// Names that differ from one another, and no more than a record has room
/// for: those after the first that is too many are not looked at.
fn check_names(names: &[Name], most: usize, too_many: &str, errors: &mut Errors) {
    for (number, &name) in names.iter().enumerate().take(most + 1) {
        let same = |other: &&Name| other.word == name.word;
        if let Some(other) = names[..number].iter().find(same) {
            errors.add(not_new(name, other.span.line));
        }
        if number == most {
            errors.add(Error::new(name.span, too_many));
        }
    }
}

pub fn not_new(name: Name, line: usize) -> Error {
    let word = quoted(name.word);
    let message = format!("expected a new name, found `{word}`, which is declared in line {line}");
    Error::new(name.span, message)
}
