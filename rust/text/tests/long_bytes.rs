//! Long byte strings to text and back to the same bytes.

use generator::Random;
use reference::Edition;
use text::{assemble, disassemble, Record, RecordKind};

fn round_trip(bytes: &[u8], what: &str) -> String {
    let said = disassemble(bytes);
    match assemble(&said) {
        Ok(assembled) => assert!(assembled.sheet == bytes, "{what}: other bytes"),
        Err(errors) => panic!("{what}: {}", errors[0]),
    }
    said
}

/// A record whose fields are all the value, or as near as they hold it.
fn filled(kind: RecordKind, edition: Edition, value: u32) -> Vec<u8> {
    let values = vec![value; kind.fields().len()];
    let mut bytes = Vec::new();
    Record::new(kind, &values).write(edition, &mut bytes);
    bytes
}

/// What makes the bytes after it those of an edition.
fn start(edition: Edition) -> Vec<u8> {
    match edition {
        Edition::First => Vec::new(),
        Edition::Second => filled(RecordKind::Header, edition, 2),
    }
}

/// All kinds, and of the second edition those that differ from the first.
fn kinds(edition: Edition) -> impl Iterator<Item = RecordKind> {
    let size_of_first = |kind: RecordKind| kind.size(Edition::First);
    let differs = move |kind: &RecordKind| kind.size(edition) != size_of_first(*kind);
    let is_due = move |kind: &RecordKind| edition == Edition::First || differs(kind);
    RecordKind::ALL.into_iter().filter(is_due)
}

/// A record of random fields, small and at the ends of their ranges.
fn any_record(random: &mut Random) -> Vec<u8> {
    let kind = random.pick(&RecordKind::ALL).unwrap_or(RecordKind::Header);
    let edition = random.pick(&Edition::ALL).unwrap_or(Edition::First);
    let mut bytes = filled(kind, edition, 0);
    for byte in &mut bytes[2..] {
        let small = random.below(20) as u8;
        let any = random.byte();
        *byte = random.pick(&[small, small, 0, 255, 254, any]).unwrap_or(0);
    }
    bytes
}

/// Runs of records, of zeros, of marks without a record, and of anything.
fn structured(random: &mut Random, length: usize) -> Vec<u8> {
    let mut bytes = random.pick(&Edition::ALL).map_or(Vec::new(), start);
    while bytes.len() < length {
        let count = random.between(1, 3_000);
        match random.below(6) {
            0 => bytes.extend(any_record(random).repeat(count)),
            1 => bytes.extend((0..count).flat_map(|_| any_record(random))),
            2 => bytes.extend(vec![random.byte(); count]),
            3 => bytes.extend(random.bytes(count)),
            4 => {
                let record = any_record(random);
                let part = record[..random.between(1, record.len())].repeat(count);
                bytes.extend(part);
            }
            _ => {
                let mut record = any_record(random);
                record.insert(0, random.byte());
                bytes.extend(record.repeat(count));
            }
        }
    }
    bytes.truncate(length);
    bytes
}

#[test]
fn long_structured_bytes_come_back() {
    for seed in 0..150 {
        let mut random = Random::new(seed);
        let length = random.pick(&[2_000, 32_767, 32_768, 32_769, 40_000, 300_000]);
        let bytes = structured(&mut random, length.unwrap_or(1_000));
        round_trip(&bytes, &format!("seed {seed}"));
    }
}

#[test]
fn long_runs_of_one_record_come_back() {
    let of = |edition| kinds(edition).map(move |kind| (kind, edition));
    for (kind, edition) in Edition::ALL.into_iter().flat_map(of) {
        for value in [0, 1, 254, 255, 65_535, u32::MAX] {
            for count in [1, 1_000, 5_000, 70_000] {
                let run = filled(kind, edition, value).repeat(count);
                let bytes = [start(edition), run].concat();
                round_trip(
                    &bytes,
                    &format!("{count} of {kind:?} {value} in {edition:?}"),
                );
            }
        }
    }
}

/// A sheet whose counts are at the limits of their fields, and more.
#[test]
fn the_largest_counts_come_back() {
    let mut sheet = Vec::from(*b"HD\x01\xff\xff\xff");
    sheet.extend(b"TY\x0f\x08\xfe\xfe\xfe\xfe\xfe\xfe\xfe\xfe".repeat(255));
    for number in 0..255_u8 {
        sheet.extend([b'Q', b'T', 1, 14, 0, number.wrapping_sub(1)]);
    }
    sheet.extend(b"PR\x00\x00\xff\xff\xff\xff");
    sheet.extend(b"VR\xfe\xfe".repeat(255));
    sheet.extend(b"IN\x05\xfe\xff\xff\xfe\xff".repeat(65_536));
    round_trip(&sheet, "the largest counts");
    // The same of an assembled text.
    let types: String = (0..253).map(|n| format!("type t{n}\n")).collect();
    let names: Vec<String> = (0..255).map(|n| format!("v{n}")).collect();
    let deep = format!("{}t252{{}}{}", "tray[".repeat(254), "]{size}".repeat(254));
    let jumps = "jumpzero v254, last\n".repeat(65_534);
    let body = format!("variable {}: {deep}\n{jumps}last: return", names.join(","));
    let procedures: String = (1..255)
        .map(|n| format!("procedure p{n} of t252\n"))
        .collect();
    let text = format!("{types}procedure main\n{body}\n{procedures}");
    let assembled = assemble(&text).unwrap_or_else(|errors| panic!("{}", errors[0]));
    let counts = &assembled.sheet[..6];
    assert_eq!(counts, [b'H', b'D', 1, 253, 255, 255]);
    round_trip(&assembled.sheet, "a text of the largest counts");
}

/// The text of bytes that are no sheet's is not much longer than they are,
/// whatever they are.
#[test]
fn long_texts_are_compact() {
    for edition in Edition::ALL {
        let full = |kind| filled(kind, edition, u32::MAX);
        let after_byte = |kind| [vec![1], full(kind)].concat();
        let mut all: Vec<Vec<u8>> = kinds(edition).map(after_byte).collect();
        all.extend(kinds(edition).map(full));
        all.push(vec![0]);
        for piece in all {
            let run = piece.repeat(2_000_000 / piece.len());
            let bytes = [start(edition), run].concat();
            let said = round_trip(&bytes, "a long run");
            assert!(said.len() <= 4 * bytes.len() + 8, "{}", &said[..60]);
        }
    }
    // The shortest that is no sheet's, and the longest that is.
    let text = |length| disassemble(&vec![0; length]);
    assert!(text(32_768).contains("# 32752\n"));
    assert!(!text(32_769).contains('#'));
}
