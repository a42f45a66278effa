//! Sheets changed by chance: bits, fields, records and whole parts.

use crate::records::records;
use generator::Random;
use reference::{Edition, MAX_SHEET};
use std::ops::Range;
use text::RecordKind;

/// Changes a sheet, with another one at hand.
type Change = fn(&mut Random, &mut Vec<u8>, &[u8]);

/// They leave much of the sheet, and are made most often.
const SMALL: [Change; 7] = [
    |random, sheet, _| set_field(random, sheet),
    |random, sheet, _| set_field(random, sheet),
    |random, sheet, _| flip_bit(random, sheet),
    repeat_record,
    remove_record,
    |random, sheet, _| exchange_records(random, sheet),
    take_record,
];
const BROAD: [Change; 3] = [splice, cut, write_random];
/// They make much work, and are made seldom.
const LARGE: [Change; 2] = [run_of_records, near_the_limit];

/// The sheet with one or more changes.
pub fn changed(random: &mut Random, mut sheet: Vec<u8>, other: &[u8]) -> Vec<u8> {
    loop {
        let changes = match random.below(64) {
            0 => &LARGE[..],
            1..=9 => &BROAD,
            _ => &SMALL,
        };
        changes[random.below(changes.len())](random, &mut sheet, other);
        if random.one_in(2) {
            break;
        }
    }
    if !random.one_in(4) {
        recount(&mut sheet);
    }
    sheet
}

/// The bytes of one of the records, or of one that would stand at the end.
fn some_record(random: &mut Random, sheet: &[u8]) -> Range<usize> {
    let end = sheet.len();
    let mut records = records(sheet);
    match records.len() {
        0 => end..end,
        count => records.swap_remove(random.below(count)).1,
    }
}

/// Values at which something changes.
const VALUES: [u8; 20] = [
    0, 1, 2, 3, 7, 8, 9, 14, 15, 16, 17, 18, 31, 32, 33, 63, 64, 65, 254, 255,
];

/// Sets a byte of a record, behind its mark, to a value of note, to the same
/// byte of another record, or to one more or less.
fn set_field(random: &mut Random, sheet: &mut [u8]) {
    let (to, from) = (some_record(random, sheet), some_record(random, sheet));
    if to.is_empty() {
        return;
    }
    let offset = random.between(2, to.len() - 1);
    let place = to.start + offset;
    sheet[place] = match random.below(4) {
        0 => VALUES[random.below(VALUES.len())],
        1 => sheet[from.start + offset.min(from.len() - 1)],
        2 => sheet[place].wrapping_add(1),
        _ => sheet[place].wrapping_sub(1),
    };
}

fn flip_bit(random: &mut Random, sheet: &mut [u8]) {
    if !sheet.is_empty() {
        let place = random.below(sheet.len());
        sheet[place] ^= 1 << random.below(8);
    }
}

fn repeat_record(random: &mut Random, sheet: &mut Vec<u8>, _: &[u8]) {
    let record = some_record(random, sheet);
    let again = sheet[record.clone()].to_vec();
    let place = match random.one_in(4) {
        true => some_record(random, sheet).end,
        false => record.end,
    };
    sheet.splice(place..place, again);
}

fn remove_record(random: &mut Random, sheet: &mut Vec<u8>, _: &[u8]) {
    let record = some_record(random, sheet);
    sheet.drain(record);
}

fn exchange_records(random: &mut Random, sheet: &mut [u8]) {
    let (one, another) = (some_record(random, sheet), some_record(random, sheet));
    if one.len() == another.len() {
        let kept = sheet[one.clone()].to_vec();
        sheet.copy_within(another.clone(), one.start);
        sheet[another].copy_from_slice(&kept);
    }
}

/// A record of the other sheet, in the place of one or before it; mostly of
/// the same kind.
fn take_record(random: &mut Random, sheet: &mut Vec<u8>, other: &[u8]) {
    let mut to = some_record(random, sheet);
    let mark = sheet.get(to.start..to.start + 2);
    let tries = [(); 8].map(|()| some_record(random, other));
    let alike = tries
        .iter()
        .find(|from| other.get(from.start..from.start + 2) == mark);
    let from = alike.unwrap_or(&tries[0]).clone();
    if random.one_in(2) {
        to.end = to.start;
    }
    sheet.splice(to, other[from].iter().copied());
}

/// The beginning of the one and the end of the other, often whole records.
fn splice(random: &mut Random, sheet: &mut Vec<u8>, other: &[u8]) {
    let (mut from, mut to) = (
        some_record(random, sheet).start,
        some_record(random, other).start,
    );
    if random.one_in(4) {
        from = random.below(sheet.len() + 1);
        to = random.below(other.len() + 1);
    }
    sheet.truncate(from);
    sheet.extend(&other[to..]);
}

fn cut(random: &mut Random, sheet: &mut Vec<u8>, _: &[u8]) {
    let length = random.below(sheet.len() + 1);
    sheet.truncate(length);
}

/// Random bytes, over what stands there or between it.
fn write_random(random: &mut Random, sheet: &mut Vec<u8>, _: &[u8]) {
    let start = random.below(sheet.len() + 1);
    let count = random.between(1, 40);
    let bytes = random.bytes(count);
    let end = match random.one_in(2) {
        true => start,
        false => (start + count).min(sheet.len()),
    };
    sheet.splice(start..end, bytes);
}

/// One record many times.
fn run_of_records(random: &mut Random, sheet: &mut Vec<u8>, _: &[u8]) {
    let record = some_record(random, sheet);
    let count = [8, 31, 32, 63, 64, 254, 255, 256, 999, 1_000, 5_000][random.below(11)];
    let many = sheet[record.clone()].repeat(count);
    sheet.splice(record, many);
}

/// So many bytes that a sheet may just have, or just not.
fn near_the_limit(random: &mut Random, sheet: &mut Vec<u8>, _: &[u8]) {
    let length = MAX_SHEET - 2 + random.below(5);
    let filling = match random.one_in(2) {
        true => vec![random.byte()],
        false => sheet[some_record(random, sheet)].to_vec(),
    };
    let more = filling.into_iter().cycle();
    sheet.extend(more.take(length.saturating_sub(sheet.len())));
    sheet.truncate(length);
}

/// Writes the counts that the records have, so that a record more or less
/// does not always end the reading.
fn recount(sheet: &mut [u8]) {
    let mut procedure = None;
    for (record, bytes) in records(sheet) {
        let place = bytes.start;
        match record.kind {
            RecordKind::Header => sheet[place + 3..place + 6].fill(0),
            RecordKind::Type => count(sheet, 3),
            RecordKind::Qualified => count(sheet, 4),
            RecordKind::Procedure => {
                count(sheet, 5);
                sheet[place + 4] = 0;
                sheet[place + 6..place + 8].fill(0);
                procedure = Some(place);
            }
            // A GN is not counted: it is due where it stands.
            RecordKind::Name => {}
            RecordKind::Variable => procedure.into_iter().for_each(|at| count(sheet, at + 4)),
            RecordKind::Instruction => procedure
                .into_iter()
                .for_each(|at| count_word(sheet, at + 6)),
        }
    }
}

fn count(sheet: &mut [u8], place: usize) {
    sheet[place] = sheet[place].saturating_add(1);
}

fn count_word(sheet: &mut [u8], place: usize) {
    let number = u16::from_le_bytes([sheet[place], sheet[place + 1]]).saturating_add(1);
    sheet[place..place + 2].copy_from_slice(&number.to_le_bytes());
}

/// So many bytes of one kind of record, for the text of which the tools may
/// have no room.
pub fn long_run(random: &mut Random) -> Vec<u8> {
    let kind = RecordKind::ALL[random.below(RecordKind::ALL.len())];
    let edition = Edition::ALL[random.below(Edition::ALL.len())];
    let fields = random.bytes(kind.size(edition) - 2);
    let record = [kind.mark().as_bytes(), &fields].concat();
    let many = record.repeat(random.below(7 << 20) / record.len());
    let header = [b'H', b'D', edition.number(), 0, 0, 0];
    [&header[..], &many].concat()
}
