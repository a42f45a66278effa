//! Refusals 2 to 5: what is due at a place of a sheet, and what is found.

use super::Explanation;
use crate::engine::Refusal;
use crate::source::Source;
use reference::Edition;
use text::field::Field;
use text::layout::{walk, Found, Misplaced, Walk};
use text::{Names, Notation, RecordKind, Sheet};

pub fn explain(source: &Source, refusal: Refusal) -> Option<Explanation> {
    let Refusal { number, place } = refusal;
    let said = |line: String| Some(Explanation::new(Vec::new(), vec![line]));
    let sheet = &source.sheet;
    let walk = walk(sheet);
    if number == 2 || number == 3 {
        return (walk.end == place)
            .then(|| said(undue(sheet, &walk, number == 3)?))
            .flatten();
    }
    let found = walk.found.iter().find(|found| found.place == place)?;
    if number == 4 {
        return wrong_edition(&walk, found);
    }
    match walk.excess(found) {
        Some(first) => Some(Explanation::new(vec![first.field], vec![first.words])),
        None => misplaced(&source.names, &walk, found),
    }
}

/// A header of an edition that there is not.
fn wrong_edition(walk: &Walk, found: &Found) -> Option<Explanation> {
    let edition = found.record.value(Field::Edition)?;
    let known = Edition::ALL.map(|edition| edition.number().to_string());
    let known = known.join(" or ");
    let line = format!("the edition is {edition}, it must be {known}");
    (!walk.has_edition()).then(|| Explanation::new(vec![Field::Edition], vec![line]))
}

/// ?R in a slot, or in a procedure that declares none.
fn misplaced(names: &Names, walk: &Walk, found: &Found) -> Option<Explanation> {
    let (field, number) = Misplaced::of(walk).in_record(found)?;
    let sheet = Sheet::of(walk)?;
    let notation = Notation {
        sheet: &sheet,
        names,
    };
    let said = notation.qualified(number);
    let what = match field {
        Field::Slot(slot) => {
            let types = walk.found.iter();
            let types = types.take_while(|other| other.place < found.place);
            let types = types.filter(|other| other.record.kind == RecordKind::Type);
            let declared = types.count();
            let (of, slot) = (names.declared(declared), names.slot(declared, slot));
            let line = format!("slot {slot} of {of}: {said}, and a slot cannot be ?R");
            return Some(Explanation::new(vec![field], vec![line]));
        }
        Field::Result => "result",
        Field::Need => "need",
        _ => "inner",
    };
    let procedure = found.procedure.unwrap_or(0);
    let lacks = match procedure {
        0 => String::from("main has no rights name"),
        number => format!(
            "procedure {} declares no rights name",
            names.procedure(number)
        ),
    };
    let line = format!("{what}: {said}, and {lacks}");
    Some(Explanation::new(vec![field], vec![line]))
}

/// What is wrong where the walk ended.
fn undue(sheet: &[u8], walk: &Walk, whole: bool) -> Option<String> {
    let left = &sheet[walk.end..];
    let bytes = match left.len() {
        1 => String::from("1 byte is"),
        count => format!("{count} bytes are"),
    };
    let Some(kind) = walk.due else {
        return Some(format!("{bytes} left over after the last record"));
    };
    let (mark, size) = (kind.mark(), kind.size(walk.edition));
    match whole {
        false => Some(format!(
            "{mark}, a record of {size} bytes, is due here, and {bytes} left"
        )),
        true => {
            let found = left.get(..2)?;
            let shown = match found.iter().all(u8::is_ascii_graphic) {
                true => format!("`{}`", String::from_utf8_lossy(found)),
                false => format!("the bytes {:02X} {:02X}", found[0], found[1]),
            };
            let why = match found == RecordKind::Name.mark().as_bytes() {
                true => ", which stands only right after the PR of a procedure other than main, and once",
                false => "",
            };
            Some(format!("the mark {mark} is due here, found {shown}{why}"))
        }
    }
}
