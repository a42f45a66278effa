//! The qualified types of a text, numbered: those of `qual` lines in their
//! order, then those written in place, at their first use in the sheet.

use crate::errors::Errors;
use crate::field::Field;
use crate::names::TRAY_RIGHTS;
use crate::outlines::{Meaning, Outlines};
use crate::quote::{listed, quoted};
use crate::record::{Record, RecordKind, NAME_BASE, NONE};
use crate::span::{Error, Span};
use crate::syntax::{Base, Bound, Name, QualLine, Qualified, Rights, Tray, TypeLine};
use std::collections::HashMap;

/// The most numbers that a byte can name beside 255, which names nothing.
const MAX_NUMBERS: usize = 255;

/// A QT record to be written.
pub struct Made {
    fields: Fields,
    /// The first equal one: same base, same rights, equal elements.
    class: usize,
    pub span: Span,
}

/// The fields of a qualified type as written, its element numbered.
#[derive(Clone)]
struct Fields {
    base: u32,
    rights: u32,
    element: Option<usize>,
    parts: Vec<(Field, Span)>,
}

impl Fields {
    fn without_rights(base: u32, span: Span) -> Self {
        Fields {
            base,
            rights: 0,
            element: None,
            parts: vec![(Field::Base, span)],
        }
    }
}

impl Made {
    pub fn record(&self) -> Record {
        let Fields { base, rights, .. } = self.fields;
        let element = self.fields.element.map_or(NONE, |number| number as u32);
        Record::new(RecordKind::Qualified, &[base, rights, element])
    }

    pub fn parts(&self) -> &[(Field, Span)] {
        &self.fields.parts
    }
}

/// Equal qualified types have the same: base, rights, the element's class.
type Key = (u32, u32, Option<usize>);

pub struct Table<'a> {
    outlines: &'a Outlines<'a>,
    /// Of each `qual` line that is declared; None where it is wrong.
    numbers: Vec<Option<usize>>,
    classes: HashMap<Key, usize>,
    pub made: Vec<Made>,
    /// Whether it is told that there are too many.
    full: bool,
}

/// None is given for what is wrong, which is then told.
impl<'a> Table<'a> {
    pub fn new(outlines: &'a Outlines<'a>) -> Self {
        Table {
            outlines,
            numbers: Vec::new(),
            classes: HashMap::new(),
            made: Vec::new(),
            full: false,
        }
    }

    /// The `qual` lines: each a record of its own, also where an equal one is
    /// there.
    pub fn declare(&mut self, errors: &mut Errors) {
        for (line, span) in &self.outlines.quals {
            let fields = self.declared_fields(line, errors);
            let number = fields.and_then(|fields| self.push(fields, *span, errors));
            self.numbers.push(number);
        }
    }

    fn declared_fields(&mut self, line: &QualLine, errors: &mut Errors) -> Option<Fields> {
        let Qualified { base, trays } = &line.qualified;
        match trays.split_last() {
            None => self.base_fields(base, errors),
            Some((outer, inner)) => {
                let element = self.nested(base, inner, errors);
                let span = inner.last().map_or(base.span(), |tray| tray.span);
                tray_fields(outer, element, span, errors)
            }
        }
    }

    /// The number of a qualified type: the first equal one, which is made
    /// where there is none yet.
    pub fn number(&mut self, qualified: &Qualified, errors: &mut Errors) -> Option<usize> {
        self.nested(&qualified.base, &qualified.trays, errors)
    }

    fn nested(&mut self, base: &Base, trays: &[Tray], errors: &mut Errors) -> Option<usize> {
        let mut number = match base {
            Base::Named(name) => self.named(*name, errors),
            _ => {
                let fields = self.base_fields(base, errors);
                fields.and_then(|fields| self.first_equal(fields, base.span(), errors))
            }
        };
        let mut span = base.span();
        for tray in trays {
            let fields = tray_fields(tray, number, span, errors);
            span = tray.span;
            number = fields.and_then(|fields| self.first_equal(fields, span, errors));
        }
        number
    }

    /// The number that a `qual` line gives to the name.
    fn named(&self, name: Name, errors: &mut Errors) -> Option<usize> {
        // While the lines are declared, a name must stand above its use.
        let above = match self.numbers.len() < self.outlines.quals.len() {
            true => "a qualified type that is declared above",
            false => "a qualified type",
        };
        let word = quoted(name.word);
        let message = match self.outlines.meaning(name) {
            None => return self.outlines.unknown(name, above, errors),
            Some(Meaning::Type(_)) => {
                format!("expected `{{` and rights after the type `{word}`, found none")
            }
            Some(Meaning::Qual(number)) if number < self.numbers.len() => {
                return self.numbers[number];
            }
            Some(Meaning::Qual(number)) if number == self.numbers.len() => {
                format!("expected {above}, found `{word}`, which this line declares")
            }
            Some(below) => {
                let line = self.outlines.line_of(below);
                format!("expected {above}, found `{word}`, which is declared below, in line {line}")
            }
        };
        errors.none(Error::new(name.span, message))
    }

    fn base_fields(&self, base: &Base, errors: &mut Errors) -> Option<Fields> {
        match base {
            // A copy of a record that is there.
            Base::Named(name) => {
                let number = self.named(*name, errors)?;
                let parts = vec![(Field::Base, name.span)];
                let fields = self.made[number].fields.clone();
                Some(Fields { parts, ..fields })
            }
            Base::Integer(span) => Some(Fields::without_rights(0, *span)),
            Base::RightsName(span) => Some(Fields::without_rights(NAME_BASE, *span)),
            Base::Declared { of, rights } => {
                let number = declared(self.outlines, *of, errors)?;
                let (line, _) = &self.outlines.types[number];
                let right =
                    |name: Name, errors: &mut Errors| self.declared_right(line, name, errors);
                Some(Fields {
                    base: (number + 2) as u32,
                    rights: bits(rights, right, errors)?,
                    element: None,
                    parts: vec![(Field::Base, of.span), (Field::Rights, rights.span)],
                })
            }
        }
    }

    fn declared_right(&self, of: &TypeLine, name: Name, errors: &mut Errors) -> Option<usize> {
        if name.word == "open" {
            return Some(0);
        }
        let number = of.rights.iter().position(|right| right.word == name.word);
        number.map(|number| number + 1).or_else(|| {
            let rights = of.rights.iter().map(|right| right.word);
            let all = listed(["open"].into_iter().chain(rights));
            let expected = format!("a right of `{}` ({all})", quoted(of.name.word));
            self.outlines.unknown(name, &expected, errors)
        })
    }

    /// The base and the least set of a rights name: open is none of its
    /// rights.
    pub fn bound(&self, bound: &Bound, errors: &mut Errors) -> Option<(u32, u32)> {
        let number = declared(self.outlines, bound.of, errors)?;
        let (line, _) = &self.outlines.types[number];
        let right = |name: Name, errors: &mut Errors| match name.word {
            "open" => {
                let of = quoted(line.name.word);
                let message = format!("expected a right that `{of}` names, found `open`");
                errors.none(Error::new(name.span, message))
            }
            _ => self.declared_right(line, name, errors),
        };
        let least = bits(&bound.least, right, errors)?;
        Some(((number + 2) as u32, least))
    }

    fn key(&self, fields: &Fields) -> Key {
        let class = fields.element.map(|number| self.made[number].class);
        (fields.base, fields.rights, class)
    }

    fn first_equal(&mut self, fields: Fields, span: Span, errors: &mut Errors) -> Option<usize> {
        let first = self.classes.get(&self.key(&fields)).copied();
        first.or_else(|| self.push(fields, span, errors))
    }

    fn push(&mut self, fields: Fields, span: Span, errors: &mut Errors) -> Option<usize> {
        let number = self.made.len();
        if number == MAX_NUMBERS {
            if !self.full {
                let message = "expected at most 255 qualified types, found one more";
                errors.add(Error::new(span, message));
            }
            self.full = true;
            return None;
        }
        let class = *self.classes.entry(self.key(&fields)).or_insert(number);
        self.made.push(Made {
            fields,
            class,
            span,
        });
        Some(number)
    }
}

/// The number of a declared type, 0 being the first.
pub fn declared(outlines: &Outlines, name: Name, errors: &mut Errors) -> Option<usize> {
    match outlines.meaning(name) {
        Some(Meaning::Type(number)) => Some(number),
        Some(Meaning::Qual(_)) => {
            let word = quoted(name.word);
            let message = format!("expected a declared type, found `{word}`, a qualified type");
            errors.none(Error::new(name.span, message))
        }
        None => outlines.unknown(name, "a declared type", errors),
    }
}

fn tray_fields(
    tray: &Tray,
    element: Option<usize>,
    span: Span,
    errors: &mut Errors,
) -> Option<Fields> {
    let rights = bits(&tray.rights, tray_right, errors);
    Some(Fields {
        base: 1,
        rights: rights?,
        element: Some(element?),
        parts: vec![(Field::Element, span), (Field::Rights, tray.rights.span)],
    })
}

/// The rights as a QT record has them, bit i for right i.
fn bits(
    rights: &Rights,
    right: impl Fn(Name, &mut Errors) -> Option<usize>,
    errors: &mut Errors,
) -> Option<u32> {
    let mut bits = 0;
    for &name in &rights.names {
        let bit = 1 << right(name, errors)?;
        if bits & bit != 0 {
            let word = quoted(name.word);
            let message = format!("expected another right, found `{word}` again");
            return errors.none(Error::new(name.span, message));
        }
        bits |= bit;
    }
    Some(bits)
}

fn tray_right(name: Name, errors: &mut Errors) -> Option<usize> {
    let number = TRAY_RIGHTS.iter().position(|right| *right == name.word);
    number.map(|number| number + 1).or_else(|| {
        let word = quoted(name.word);
        let message = format!("expected a right of a tray (fetch, store, size), found `{word}`");
        errors.none(Error::new(name.span, message))
    })
}
