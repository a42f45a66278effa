//! The bytes of a sheet made into a text that assembles to them again.
//!
//! Well-formed sheets become named text, with generated names; any other
//! bytes become raw text, as far as marks and lengths allow.

use crate::edition::EDITION;
use crate::lexer::RIGHTS_NAME;
use crate::mnemonic::{Mnemonic, Piece};
use crate::names::{generated_procedure, Names, ProcedureNames, TypeNames};
use crate::notation::Notation;
use crate::raw_text::raw_text;
use crate::sheet::{Instruction, Kind, Procedure, RightsName, Sheet, Variable};
use crate::types::Type;
use reference::Edition;
use std::collections::HashSet;
use std::fmt::Write;

const JUMP_IF_ZERO: u8 = 5;

/// The longest notation that stands for a type instead of its name.
const LONGEST_NOTATION: usize = 60;

/// The text of any bytes.
pub fn disassemble(sheet: &[u8]) -> String {
    match Sheet::read(sheet) {
        Some(read) => named(&read),
        None => raw_text(sheet),
    }
}

/// Writing to a string cannot fail.
pub fn add(out: &mut String, said: std::fmt::Arguments) {
    let _ = out.write_fmt(said);
}

fn named(sheet: &Sheet) -> String {
    let names = generated(sheet);
    let notation = Notation {
        sheet,
        names: &names,
    };
    let numbers = 0..sheet.qualified.len();
    let mut writer = Named {
        sheet,
        notation,
        references: numbers
            .map(|number| reference_to(notation, number))
            .collect(),
        out: String::new(),
    };
    writer.edition();
    writer.types();
    writer.quals();
    for number in 0..sheet.procedures.len() {
        writer.procedure(number);
    }
    writer.out
}

/// Names for what a sheet only numbers.
fn generated(sheet: &Sheet) -> Names {
    let numbered = |letter: char, count: usize, first: usize| -> Vec<String> {
        let numbers = first..first + count;
        numbers.map(|number| format!("{letter}{number}")).collect()
    };
    let types = sheet.types.iter().enumerate();
    let procedures = sheet.procedures.iter().enumerate();
    Names {
        types: types
            .map(|(number, declared)| TypeNames {
                name: format!("t{}", number + 2),
                rights: numbered('r', declared.named_rights, 1),
                slots: numbered('s', declared.slots.len(), 0),
            })
            .collect(),
        procedures: procedures
            .map(|(number, procedure)| ProcedureNames {
                name: generated_procedure(number),
                variables: numbered('v', procedure.variables.len(), 0),
            })
            .collect(),
    }
}

struct Named<'a> {
    sheet: &'a Sheet,
    notation: Notation<'a>,
    /// How each qualified type is referred to.
    references: Vec<String>,
    out: String,
}

impl Named<'_> {
    /// The first edition is that of a text which says none.
    fn edition(&mut self) {
        let edition = self.sheet.edition;
        if edition != Edition::First {
            let number = edition.number();
            add(&mut self.out, format_args!("{EDITION} {number}\n"));
        }
    }

    fn types(&mut self) {
        for (number, declared) in self.sheet.types.iter().enumerate() {
            let names = &self.notation.names.types[number];
            let (name, rights) = (&names.name, names.rights.join(","));
            add(&mut self.out, format_args!("type {name}{{{rights}}}"));
            let slots = names.slots.iter().zip(&declared.slots);
            let slots =
                slots.map(|(name, &qualified)| format!("{name}: {}", self.references[qualified]));
            let slots: Vec<String> = slots.collect();
            if !slots.is_empty() {
                add(&mut self.out, format_args!(" ({})", slots.join(", ")));
            }
            self.out.push('\n');
        }
    }

    fn quals(&mut self) {
        for (number, qualified) in self.sheet.qualified.iter().enumerate() {
            let mut said = self.notation.qualified(number);
            if let Kind::Tray { element } = qualified.kind {
                // Any type of no declared base names the rights of trays.
                let rights = self.notation.rights(&Type::Integer, qualified.rights);
                said = format!("tray[{}]{{{rights}}}", self.references[element]);
            }
            add(&mut self.out, format_args!("qual q{number} = {said}\n"));
        }
    }

    fn procedure(&mut self, number: usize) {
        let procedure = &self.sheet.procedures[number];
        let name = self.notation.names.procedure(number);
        let blank = if self.out.is_empty() { "" } else { "\n" };
        let mut head = format!("{blank}procedure {name}");
        if let Some(bound) = procedure.name {
            add(&mut head, format_args!(" for {}", self.bound(bound)));
        }
        if let Some(owner) = procedure.owner {
            add(&mut head, format_args!(" of t{}", owner + 2));
        }
        if let Some(result) = procedure.result {
            add(
                &mut head,
                format_args!(" gives {}", self.references[result]),
            );
        }
        add(&mut self.out, format_args!("{head}\n"));
        for (number, variable) in procedure.variables.iter().enumerate() {
            let line = self.variable(number, variable);
            add(&mut self.out, format_args!("    {line}\n"));
        }
        let targets = targets(procedure);
        for (index, instruction) in procedure.instructions.iter().enumerate() {
            let label = match targets.contains(&index) {
                true => format!("L{index}:"),
                false => String::new(),
            };
            let said = self.instruction(instruction);
            add(&mut self.out, format_args!("{label:<8}{said}\n"));
        }
    }

    /// For example `?R >= call{read}`.
    fn bound(&self, RightsName { of, least }: RightsName) -> String {
        let rights = least;
        let least = self.notation.said(&Type::Declared { of, rights });
        format!("{RIGHTS_NAME} >= {least}")
    }

    fn variable(&self, number: usize, variable: &Variable) -> String {
        let inner = &self.references[variable.inner];
        match variable.need {
            None => format!("variable v{number}: {inner}"),
            Some(need) if need == variable.inner => format!("formal v{number}: {inner}"),
            Some(need) => {
                let need = &self.references[need];
                format!("formal v{number}: {need} as {inner}")
            }
        }
    }

    fn instruction(&self, fields: &Instruction) -> String {
        let Some(mnemonic) = Mnemonic::by_code(fields.code) else {
            return String::new();
        };
        let mut said = String::from(mnemonic.word);
        let mut blank = " ";
        for &piece in mnemonic.pieces {
            let part = match piece {
                Piece::A => variable(fields.a),
                Piece::B => variable(fields.b),
                Piece::C => variable(fields.c),
                Piece::Number => fields.k.to_string(),
                Piece::Label => format!("L{}", fields.k),
                Piece::Slot => format!("s{}", fields.k),
                Piece::Mark(mark) => String::from(mark),
                Piece::Call => self.call(fields),
                Piece::MaybeA => variable(fields.a),
            };
            // Brackets, dots and commas stand close to what they follow.
            let close = matches!(part.as_str(), "[" | "]" | "." | ",");
            let space = if close || part.is_empty() { "" } else { blank };
            add(&mut said, format_args!("{space}{part}"));
            blank = if matches!(part.as_str(), "[" | ".") {
                ""
            } else {
                " "
            };
        }
        said
    }

    /// `[a <-] procedure(actuals)`.
    fn call(&self, fields: &Instruction) -> String {
        let formals = self.sheet.procedures[fields.k].formals;
        let actuals = fields.b.map(|first| first..first + formals);
        let actuals = actuals.into_iter().flatten();
        let actuals: Vec<String> = actuals.map(|number| variable(Some(number))).collect();
        let (name, actuals) = (generated_procedure(fields.k), actuals.join(", "));
        match fields.a {
            Some(_) => format!("{} <- {name}({actuals})", variable(fields.a)),
            None => format!("{name}({actuals})"),
        }
    }
}

fn variable(number: Option<usize>) -> String {
    number.map_or_else(String::new, |number| format!("v{number}"))
}

/// The notation of a qualified type where it is short and means this number:
/// that of the first equal one. Otherwise the name.
fn reference_to(notation: Notation, number: usize) -> String {
    let equal = |other| notation.sheet.equal(other, number);
    let said = notation.qualified(number);
    match said.len() <= LONGEST_NOTATION && !(0..number).any(equal) {
        true => said,
        false => format!("q{number}"),
    }
}

/// The instructions that some jump of the procedure goes to.
fn targets(procedure: &Procedure) -> HashSet<usize> {
    let instructions = procedure.instructions.iter();
    let jumps = instructions.filter(|instruction| instruction.code == JUMP_IF_ZERO);
    jumps.map(|jump| jump.k).collect()
}
