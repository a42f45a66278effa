//! A text made into the bytes of a sheet.

use crate::edition;
use crate::errors::Errors;
use crate::field::Field;
use crate::listing::{At, Entry, Listing};
use crate::names::Names;
use crate::outline::Outline;
use crate::outlines::Outlines;
use crate::procedure::{Owner, Scope};
use crate::qualified::{declared, Table};
use crate::raw;
use crate::record::{Record, RecordKind, NONE};
use crate::span::{Error, Span};
use crate::syntax::{Bound, VariableLine};
use reference::layout::MAX_SLOTS;
use reference::Edition;

/// The bytes of a sheet, the lines they come from and the names in them.
pub struct Assembled {
    pub sheet: Vec<u8>,
    pub listing: Listing,
    pub names: Names,
}

/// Some editors write it before a text.
const BYTE_ORDER_MARK: char = '\u{feff}';

/// Makes the bytes of a text, or says where and why it is none: its errors in
/// the order of the text, at most [`MAX_ERRORS`](crate::MAX_ERRORS).
pub fn assemble(text: &str) -> Result<Assembled, Vec<Error>> {
    let text = text.strip_prefix(BYTE_ORDER_MARK).unwrap_or(text);
    if raw::is_raw(text) {
        return raw::assemble(text);
    }
    let mut errors = Errors::default();
    let outlines = Outlines::read(text, &mut errors);
    // Where reading stopped, what is declared below is not known.
    if errors.is_full() {
        return Err(errors.sorted());
    }
    let mut table = Table::new(&outlines);
    errors.next_pass();
    table.declare(&mut errors);
    errors.next_pass();
    let types = outlines.type_records(&mut table, &mut errors);
    errors.next_pass();
    let procedures = outlines.procedure_records(&mut table, &mut errors);
    if !errors.is_empty() {
        return Err(errors.sorted());
    }
    let names = outlines.names();
    let mut writer = Writer::default();
    let header = header(outlines.edition(), &names, table.made.len());
    writer.add(At::Header, &header, None, Vec::new());
    let located = types.into_iter().chain(table.records()).chain(procedures);
    located.for_each(|located| writer.add_located(located));
    let Writer { sheet, listing } = writer;
    Ok(Assembled {
        sheet,
        listing,
        names,
    })
}

fn header(edition: Edition, names: &Names, quals: usize) -> Record {
    let edition = u32::from(edition.number());
    let (types, procedures) = (names.types.len(), names.procedures.len());
    let values = [edition, types as u32, quals as u32, procedures as u32];
    Record::new(RecordKind::Header, &values)
}

/// A record to be written, with where it comes from. Those of a text that has
/// an error are not kept.
struct Located {
    at: At,
    record: Record,
    span: Span,
    parts: Vec<(Field, Span)>,
}

/// Writes records one after the other, and lists them. The edition is that of
/// the header that stands first.
#[derive(Default)]
pub struct Writer {
    pub sheet: Vec<u8>,
    pub listing: Listing,
}

impl Writer {
    pub fn add(&mut self, at: At, record: &Record, span: Option<Span>, parts: Vec<(Field, Span)>) {
        let place = self.sheet.len();
        record.write(edition::of_sheet(&self.sheet), &mut self.sheet);
        let size = self.sheet.len() - place;
        self.listing.entries.push(Entry {
            at,
            place,
            size,
            span,
            parts,
        });
    }

    /// After a line that is wrong, of which nothing is kept: before all others
    /// it may have been a header of the second edition, whose fields are wider.
    pub fn suppose_header(&mut self) {
        if self.sheet.is_empty() {
            let values = [u32::from(Edition::Second.number()), 0, 0, 0];
            let header = Record::new(RecordKind::Header, &values);
            self.add(At::Header, &header, None, Vec::new());
        }
    }

    fn add_located(&mut self, located: Located) {
        let Located {
            at,
            record,
            span,
            parts,
        } = located;
        self.add(at, &record, Some(span), parts);
    }
}

impl Table<'_> {
    fn records(&self) -> impl Iterator<Item = Located> + '_ {
        let made = self.made.iter().enumerate();
        made.map(|(number, made)| Located {
            at: At::Qualified(number),
            record: made.record(),
            span: made.span,
            parts: made.parts().to_vec(),
        })
    }
}

/// A number that is wrong, and told, is none; no record with it is written.
fn value(number: Option<usize>) -> u32 {
    number.map_or(NONE, |number| number as u32)
}

impl Outlines<'_> {
    fn type_records(&self, table: &mut Table, errors: &mut Errors) -> Vec<Located> {
        let mut all = Vec::new();
        for (number, (line, span)) in self.types.iter().enumerate() {
            let mut values = vec![line.rights.len() as u32, line.slots.len() as u32];
            let slots = line.slots.iter().map(|(_, qualified)| qualified);
            values.extend(slots.clone().map(|slot| value(table.number(slot, errors))));
            values.resize(2 + MAX_SLOTS, NONE);
            if !errors.is_empty() {
                continue;
            }
            let parts = slots.enumerate();
            let parts = parts.map(|(slot, qualified)| (Field::Slot(slot), qualified.span()));
            all.push(Located {
                at: At::Type(number),
                record: Record::new(RecordKind::Type, &values),
                span: *span,
                parts: parts.collect(),
            });
        }
        all
    }

    /// The PR, GN, VR and IN records of all procedures.
    fn procedure_records(&self, table: &mut Table, errors: &mut Errors) -> Vec<Located> {
        let mut all = Vec::new();
        for (number, outline) in self.procedures.iter().enumerate() {
            let owner = outline.owner.map(|name| declared(self, name, errors));
            all.push(outline.head(number, owner.flatten(), table, errors));
            let bound = outline.bound.as_ref();
            all.extend(bound.and_then(|bound| bound.located(number, table, errors)));
            outline.variable_records(number, table, errors, &mut all);
            let scope = Scope {
                outlines: self,
                outline,
                owner: match owner {
                    None if outline.name.is_none() => Owner::Unknown,
                    None => Owner::None,
                    Some(None) => Owner::Unknown,
                    Some(Some(owner)) => Owner::Type(&self.types[owner].0),
                },
            };
            scope.instruction_records(number, errors, &mut all);
            outline.check_end(errors);
            if errors.is_full() {
                break;
            }
        }
        all
    }
}

impl Scope<'_> {
    fn instruction_records(&self, number: usize, errors: &mut Errors, all: &mut Vec<Located>) {
        for (index, line) in self.outline.instructions.iter().enumerate() {
            let Some((instruction, span)) = line else {
                continue;
            };
            let encoded = self.instruction(instruction, *span, errors);
            let kept = encoded.filter(|_| errors.is_empty());
            all.extend(kept.map(|encoded| Located {
                at: At::Instruction(number, index),
                record: encoded.record,
                span: *span,
                parts: encoded.parts,
            }));
            if errors.is_full() {
                break;
            }
        }
    }
}

impl Outline<'_> {
    fn head(
        &self,
        number: usize,
        owner: Option<usize>,
        table: &mut Table,
        errors: &mut Errors,
    ) -> Located {
        let result = self.result.as_ref();
        let owner_part = self.owner.map(|name| (Field::Owner, name.span));
        let result_part = result.map(|qualified| (Field::Result, qualified.span()));
        let values = [
            owner.map_or(0, |owner| (owner + 2) as u32),
            self.formals.map_or(0, |count| count as u32),
            self.variables.len() as u32,
            value(result.and_then(|qualified| table.number(qualified, errors))),
            self.instructions.len() as u32,
        ];
        Located {
            at: At::Procedure(number),
            record: Record::new(RecordKind::Procedure, &values),
            span: self.span,
            parts: owner_part.into_iter().chain(result_part).collect(),
        }
    }

    fn variable_records(
        &self,
        number: usize,
        table: &mut Table,
        errors: &mut Errors,
        all: &mut Vec<Located>,
    ) {
        let mut index = 0;
        for line in &self.lines {
            let (record, parts) = line.record(table, errors);
            if !errors.is_empty() {
                continue;
            }
            all.extend(line.names.iter().zip(index..).map(|(name, index)| Located {
                at: At::Variable(number, index),
                record: record.clone(),
                span: name.span,
                parts: parts.clone(),
            }));
            index += line.names.len();
        }
    }
}

impl Bound<'_> {
    /// The record of the rights name; None where it is wrong, which is told.
    fn located(&self, number: usize, table: &Table, errors: &mut Errors) -> Option<Located> {
        let (base, least) = table.bound(self, errors)?;
        Some(Located {
            at: At::Name(number),
            record: Record::new(RecordKind::Name, &[base, least]),
            span: self.span,
            parts: vec![(Field::Base, self.of.span), (Field::Least, self.least.span)],
        })
    }
}

impl VariableLine<'_> {
    /// The record that each of the line's variables has.
    fn record(&self, table: &mut Table, errors: &mut Errors) -> (Record, Vec<(Field, Span)>) {
        let needed = self.need.as_ref();
        let need = needed.and_then(|need| table.number(need, errors));
        let mut parts = Vec::new();
        parts.extend(needed.map(|need| (Field::Need, need.span())));
        let mut inner = need;
        if let Some(qualified) = &self.inner {
            inner = table.number(qualified, errors);
        }
        let qualified = self.inner.as_ref().or(needed);
        parts.extend(qualified.map(|inner| (Field::Inner, inner.span())));
        let values = [value(inner), value(need)];
        (Record::new(RecordKind::Variable, &values), parts)
    }
}
