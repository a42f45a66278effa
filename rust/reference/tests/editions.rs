//! Sheets of both editions (document 02, S-5), byte by byte: "Edition 2 has n
//! 0..31 and four rights bytes in QT and GN, so these take 8 and 7 bytes."

use reference::{check, parse, Edition, Program, Verdict};

const MAIN: &[u8] = b"PR\x00\x00\x00\xff\x01\x00IN\x11\xff\xff\xff\x00\x00";

/// What a sheet of one type, two QTs and a GN says.
#[derive(Clone, Copy)]
struct Sample {
    edition: u8,
    named_rights: u8,
    /// The base and the rights of QT 0, whose element is 255.
    base: u8,
    rights: u32,
    least: u32,
}

const FIRST: Sample = Sample {
    edition: 1,
    named_rights: 15,
    base: 2,
    rights: 0x8001,
    least: 0x4002,
};

const SECOND: Sample = Sample {
    edition: 2,
    named_rights: 31,
    base: 2,
    rights: 0x8001_0001,
    least: 0x4000_8000,
};

impl Sample {
    /// The bytes, with so many for rights. Procedure 1 has ?R, QT 1, as its
    /// only formal.
    fn bytes(self, rights_bytes: usize) -> Vec<u8> {
        let mut sheet = vec![b'H', b'D', self.edition, 1, 2, 2];
        sheet.extend([b'T', b'Y', self.named_rights, 0]);
        sheet.extend([255; 8]);
        sheet.extend([b'Q', b'T', self.base]);
        sheet.extend(&self.rights.to_le_bytes()[..rights_bytes]);
        sheet.extend(b"\xffQT\xff");
        sheet.extend(vec![0; rights_bytes]);
        sheet.push(255);
        sheet.extend(MAIN);
        sheet.extend(b"PR\x00\x01\x01\xff\x01\x00GN\x02");
        sheet.extend(&self.least.to_le_bytes()[..rights_bytes]);
        sheet.extend(b"VR\x01\x01IN\x11\xff\xff\xff\x00\x00");
        sheet
    }
}

fn refused(number: u8, place: usize) -> Verdict {
    Verdict::Refused { number, place }
}

/// The rights of QT 0 and of the GN, and the places of QT 1, main, procedure
/// 1, its GN, its VR and its IN.
fn read(program: &Program) -> ([Vec<usize>; 2], [usize; 6]) {
    let procedure = &program.procedures[1];
    let bound = procedure.bound.expect("there is a GN");
    let rights = [program.qualified[0].rights, bound.least];
    let places = [
        program.qualified[1].place,
        program.procedures[0].place,
        procedure.place,
        bound.place,
        procedure.variables[0].place,
        procedure.instructions[0].place,
    ];
    (rights.map(|set| set.members().collect()), places)
}

#[test]
fn rights_are_read_and_records_follow() {
    let first = parse(&FIRST.bytes(2)).expect("the layout is right");
    let rights = [vec![0, 15], vec![1, 14]];
    assert_eq!(read(&first), (rights, [24, 30, 46, 54, 59, 63]));
    let second = parse(&SECOND.bytes(4)).expect("the layout is right");
    let rights = [vec![0, 16, 31], vec![15, 30]];
    assert_eq!(read(&second), (rights, [26, 34, 50, 58, 65, 69]));
    for sheet in [FIRST.bytes(2), SECOND.bytes(4)] {
        assert_eq!(check(&sheet), Verdict::Accepted);
    }
}

#[test]
fn what_an_edition_decides() {
    let decided = Edition::ALL.map(|edition| {
        let rights = (edition.rights_bytes(), edition.most_named_rights());
        (edition.number(), rights)
    });
    assert_eq!(decided, [(1, (2, 15)), (2, (4, 31))]);
    for edition in Edition::ALL {
        assert_eq!(Edition::numbered(edition.number()), Some(edition));
    }
}

/// "Refusal 4 then means neither 1 nor 2", before the counts.
#[test]
fn every_number_of_an_edition() {
    for edition in 0..=255 {
        let known = matches!(edition, 1 | 2);
        let mut smallest = vec![b'H', b'D', edition, 0, 0, 1];
        smallest.extend(MAIN);
        let due = if known {
            Verdict::Accepted
        } else {
            refused(4, 0)
        };
        assert_eq!(check(&smallest), due, "{edition}");
        let due = if known { refused(5, 0) } else { refused(4, 0) };
        for counts in [[33, 0, 1], [0, 65, 1], [0, 0, 0], [0, 0, 65]] {
            let header = [&[b'H', b'D', edition][..], &counts].concat();
            assert_eq!(check(&header), due, "{edition}, {counts:?}");
        }
    }
}

#[test]
fn every_number_of_named_rights() {
    for (sample, bytes, most) in [(FIRST, 2, 15), (SECOND, 4, 31)] {
        for named_rights in 0..=255 {
            let sheet = Sample {
                named_rights,
                rights: 0,
                least: 0,
                ..sample
            };
            let due = match named_rights <= most {
                true => Verdict::Accepted,
                false => refused(5, 6),
            };
            assert_eq!(check(&sheet.bytes(bytes)), due, "{named_rights}");
        }
    }
}

/// Each right alone: of the integer, of a declared type of QT 0, in a least
/// set.
#[test]
fn every_right_of_every_type() {
    for (sample, bytes, gn) in [(FIRST, 2, 54), (SECOND, 4, 58)] {
        for named_rights in [0, 1, 14, 15, 16, 22, 30, 31] {
            if named_rights > sample.named_rights {
                continue;
            }
            for right in 0..8 * bytes as u8 {
                let sample = Sample {
                    named_rights,
                    rights: 0,
                    least: 0,
                    ..sample
                };
                let rights = 1 << right;
                let check = |sample: Sample| check(&sample.bytes(bytes));
                let due = |fits: bool, place: usize| match fits {
                    true => Verdict::Accepted,
                    false => refused(5, place),
                };
                let shown = (bytes, named_rights, right);
                let declared = check(Sample { rights, ..sample });
                assert_eq!(declared, due(right <= named_rights, 18), "{shown:?}");
                let integer = check(Sample {
                    base: 0,
                    rights,
                    ..sample
                });
                assert_eq!(integer, refused(5, 18), "{shown:?}");
                let generic = check(Sample {
                    base: 255,
                    rights,
                    ..sample
                });
                assert_eq!(generic, refused(5, 18), "{shown:?}");
                let least = check(Sample {
                    least: rights,
                    ..sample
                });
                let named = (1..=named_rights).contains(&right);
                assert_eq!(least, due(named, gn), "{shown:?}");
            }
        }
    }
}

/// An array, QT 1 in place of ?R, with each set of four bytes that has one bit
/// beside fetch.
#[test]
fn every_right_of_an_array() {
    let mut sheet = SECOND.bytes(4);
    // No procedure uses ?R, and none has a GN.
    sheet.truncate(50);
    sheet[5] = 1;
    sheet[28] = 1;
    sheet[33] = 0;
    for right in 0..32 {
        let rights: u32 = 2 | 1 << right;
        sheet[29..33].copy_from_slice(&rights.to_le_bytes());
        let due = match (1..=3).contains(&right) {
            true => Verdict::Accepted,
            false => refused(5, 26),
        };
        // QT 0 has open, which no element may have.
        sheet[21] = 0;
        assert_eq!(check(&sheet), due, "{right}");
    }
}

/// Each length but the whole is torn, at the record that is cut.
#[test]
fn every_length() {
    for (sheet, places) in [
        (FIRST.bytes(2), vec![0, 6, 18, 24, 30, 38, 46, 54, 59, 63]),
        (SECOND.bytes(4), vec![0, 6, 18, 26, 34, 42, 50, 58, 65, 69]),
    ] {
        for length in 0..sheet.len() {
            let cut = places.iter().rfind(|&&place| place <= length);
            let place = cut.copied().expect("the first is 0");
            assert_eq!(check(&sheet[..length]), refused(2, place), "{length}");
        }
    }
}
