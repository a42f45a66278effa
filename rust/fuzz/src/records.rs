//! The records of a sheet from its start on.

use std::ops::Range;
use text::{edition_of, Record};

/// The records, up to what is none, with their bytes.
pub fn records(sheet: &[u8]) -> Vec<(Record, Range<usize>)> {
    let edition = edition_of(sheet);
    let mut all = Vec::new();
    let mut place = 0;
    while let Some(record) = Record::read(&sheet[place..], edition) {
        let end = place + record.kind.size(edition);
        all.push((record, place..end));
        place = end;
    }
    all
}
