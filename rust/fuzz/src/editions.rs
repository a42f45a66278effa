//! A sheet in the second edition.

use crate::records::records;
use reference::Edition;
use text::field::Field;
use text::{Record, RecordKind};

/// The sheet record for record, and what follows the records as it stands. The
/// named rights of each type move up by so many places, as far as there are
/// so many, and rights after the fifteenth are used; what is accepted stays so.
pub fn second(sheet: &[u8], mut places: impl FnMut() -> usize) -> Vec<u8> {
    let (number, most) = (
        u32::from(Edition::Second.number()),
        Edition::Second.most_named_rights(),
    );
    let mut moved = Vec::new();
    let (mut written, mut end) = (Vec::new(), 0);
    for (mut record, bytes) in records(sheet) {
        let base = record.number(Field::Base);
        let places_of_base = base.checked_sub(2).and_then(|of| moved.get(of)).copied();
        match record.kind {
            RecordKind::Header => set(&mut record, Field::Edition, |_| number),
            RecordKind::Type => {
                let room = most.saturating_sub(record.number(Field::NamedRights));
                let up = places().min(room) as u32;
                moved.push(up);
                set(&mut record, Field::NamedRights, |named| named + up);
            }
            RecordKind::Qualified => move_up(&mut record, Field::Rights, places_of_base),
            RecordKind::Name => move_up(&mut record, Field::Least, places_of_base),
            _ => (),
        }
        record.write(Edition::Second, &mut written);
        end = bytes.end;
    }
    written.extend(&sheet[end..]);
    written
}

/// Changes the value of a field.
fn set(record: &mut Record, wanted: Field, change: impl Fn(u32) -> u32) {
    let fields = record.kind.fields().into_iter().zip(&mut record.values);
    for (_, value) in fields.filter(|(field, _)| *field == wanted) {
        *value = change(*value);
    }
}

/// Moves the named rights of a set up; open stays where it is.
fn move_up(record: &mut Record, rights: Field, places: Option<u32>) {
    set(record, rights, |set| {
        set & 1 | (set & !1) << places.unwrap_or(0)
    });
}
