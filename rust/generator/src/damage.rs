//! Bytes that are mostly not sheets, and valid sheets with something changed.

use crate::limits::{fields, Field};
use crate::random::Random;
use crate::records::{BoundRecord, RecordKind};
use crate::sheet::Sheet;
use reference::Edition;
use std::ops::Range;

const MAX_SHEET: usize = 32_768;

/// Random bytes: without any order, or records with right marks and small
/// random fields.
pub fn random_bytes(random: &mut Random) -> Vec<u8> {
    if random.one_in(3) {
        let count = random.below(200);
        return random.bytes(count);
    }
    let mut bytes = Vec::new();
    let edition = Edition::ALL[random.below(2)];
    let counts = [random.below(3), random.below(4), random.between(1, 3)];
    bytes.extend(RecordKind::Header.mark());
    bytes.push(edition.number());
    bytes.extend(counts.map(|count| count as u8));
    for (kind, count) in [RecordKind::Type, RecordKind::Qualified]
        .into_iter()
        .zip([counts[0], counts[1]])
    {
        for _ in 0..count {
            marked_record(random, kind, edition, &mut bytes);
        }
    }
    for _ in 0..random.below(12) {
        let kind = RecordKind::ALL[random.between(3, 6)];
        marked_record(random, kind, edition, &mut bytes);
    }
    bytes
}

fn any_kind(random: &mut Random) -> RecordKind {
    RecordKind::ALL[random.below(RecordKind::ALL.len())]
}

/// A record with its mark and fields that are often in range.
fn marked_record(random: &mut Random, kind: RecordKind, edition: Edition, bytes: &mut Vec<u8>) {
    bytes.extend(kind.mark());
    for _ in 2..kind.size(edition) {
        bytes.push(match random.below(8) {
            0 => random.byte(),
            1..=3 => 255,
            4 => random.below(18) as u8,
            _ => random.below(3) as u8,
        });
    }
}

/// The bytes of the sheet with one to three changes.
pub fn damaged(random: &mut Random, sheet: &Sheet) -> Vec<u8> {
    let mut bytes = sheet.encode();
    for _ in 0..random.between(1, 3) {
        change(random, sheet, &mut bytes);
        if !random.one_in(4) {
            break;
        }
    }
    bytes
}

fn change(random: &mut Random, sheet: &Sheet, bytes: &mut Vec<u8>) {
    match random.below(13) {
        0 => flip_bits(random, bytes),
        1 => cut(random, sheet, bytes),
        2 => extend(random, sheet, bytes),
        3 => replace_bytes(random, bytes),
        4 => exchange_mark(random, sheet, bytes),
        5 => drop_record(random, sheet, bytes),
        6 => repeat_record(random, sheet, bytes),
        7 => insert_bound(random, sheet, bytes),
        _ => set_field(random, sheet, bytes),
    }
}

fn flip_bits(random: &mut Random, bytes: &mut [u8]) {
    for _ in 0..random.between(1, 4) {
        if !bytes.is_empty() {
            let place = random.below(bytes.len());
            bytes[place] ^= 1 << random.below(8);
        }
    }
}

/// Cuts anywhere, or within a record of a random kind.
fn cut(random: &mut Random, sheet: &Sheet, bytes: &mut Vec<u8>) {
    let length = if random.one_in(2) {
        random.below(bytes.len() + 1)
    } else {
        let record = some_record(random, sheet);
        record.start + random.below(record.len())
    };
    bytes.truncate(length);
}

/// Adds a few bytes, a record, or enough to be too long.
fn extend(random: &mut Random, sheet: &Sheet, bytes: &mut Vec<u8>) {
    match random.below(20) {
        0 => {
            let length = MAX_SHEET - 1 + random.below(4);
            bytes.resize(length, random.byte());
        }
        1..=8 => {
            let kind = any_kind(random);
            marked_record(random, kind, sheet.edition(), bytes);
        }
        _ => {
            let count = random.between(1, 12);
            let more = random.bytes(count);
            bytes.extend(more);
        }
    }
}

fn replace_bytes(random: &mut Random, bytes: &mut [u8]) {
    for _ in 0..random.between(1, 3) {
        if !bytes.is_empty() {
            let place = random.below(bytes.len());
            bytes[place] = random.byte();
        }
    }
}

/// Where a record of a random kind stands in the undamaged sheet.
fn some_record(random: &mut Random, sheet: &Sheet) -> Range<usize> {
    let kind = any_kind(random);
    let places = sheet.places();
    let of_kind: Vec<usize> = places
        .iter()
        .filter(|(at, _)| at.kind() == kind)
        .map(|&(_, place)| place)
        .collect();
    let (place, kind) = match random.pick(&of_kind) {
        Some(place) => (place, kind),
        None => (0, RecordKind::Header),
    };
    place..place + kind.size(sheet.edition())
}

fn exchange_mark(random: &mut Random, sheet: &Sheet, bytes: &mut [u8]) {
    let place = some_record(random, sheet).start;
    let mark = match random.below(4) {
        0 => [random.byte(), random.byte()],
        _ => any_kind(random).mark(),
    };
    for (byte, new) in bytes.iter_mut().skip(place).zip(mark) {
        *byte = new;
    }
}

fn drop_record(random: &mut Random, sheet: &Sheet, bytes: &mut Vec<u8>) {
    let Range { start, end } = some_record(random, sheet);
    let end = end.min(bytes.len());
    bytes.drain(start.min(end)..end);
}

fn repeat_record(random: &mut Random, sheet: &Sheet, bytes: &mut Vec<u8>) {
    let Range { start, end } = some_record(random, sheet);
    let end = end.min(bytes.len());
    let again = bytes[start.min(end)..end].to_vec();
    bytes.splice(end..end, again);
}

/// A GN after a PR, be it main's or one that has a GN, or after another
/// record, where none is due.
fn insert_bound(random: &mut Random, sheet: &Sheet, bytes: &mut Vec<u8>) {
    let places = sheet.places();
    let after_head = !random.one_in(4);
    let heads = places
        .iter()
        .filter(|(at, _)| !after_head || at.kind() == RecordKind::Procedure);
    let edition = sheet.edition();
    let ends = heads.map(|(at, place)| place + at.kind().size(edition));
    let ends: Vec<usize> = ends.collect();
    if let Some(place) = random.pick(&ends) {
        let base = random.between(1, sheet.types.len() + 2) as u8;
        let least = random.word() as u32 & 2;
        let mut record = Vec::new();
        BoundRecord { base, least }.encode(edition, &mut record);
        record.truncate(random.between(4, 8));
        let place = place.min(bytes.len());
        bytes.splice(place..place, record);
    }
}

/// Sets a field near one of its limits.
fn set_field(random: &mut Random, sheet: &Sheet, bytes: &mut [u8]) {
    let kind = any_kind(random);
    let places = sheet.places();
    let of_kind: Vec<_> = places.iter().filter(|(at, _)| at.kind() == kind).collect();
    let Some((at, place)) = random.pick(&of_kind) else {
        return;
    };
    let all = fields(sheet, *at);
    let field = &all[random.below(all.len())];
    if let Some(value) = random.pick(&field.values) {
        write_field(bytes, *place, field, value);
    }
}

/// Writes a value into a field of the record at the place, as far as the
/// bytes reach.
pub fn write_field(bytes: &mut [u8], place: usize, field: &Field, value: u32) {
    let new = value.to_le_bytes();
    let target = bytes.iter_mut().skip(place + field.offset);
    for (byte, new) in target.zip(new).take(field.width) {
        *byte = new;
    }
}
