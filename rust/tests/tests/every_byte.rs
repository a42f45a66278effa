//! One accepted sheet with all seventeen codes, in both editions, changed in
//! every way that takes one step.

use comparison::agreed;
use generator::damage::write_field;
use generator::limits::fields;
use generator::showcase::showcases;
use generator::Sheet;
use reference::Verdict;

/// Compares the engines and says whether the sheet is accepted.
fn accepted(sheet: &[u8]) -> bool {
    let verdict = agreed(sheet).unwrap_or_else(|fault| panic!("{fault}"));
    verdict == Verdict::Accepted
}

#[test]
fn every_value_of_every_byte() {
    showcases().iter().for_each(change_each_byte);
}

fn change_each_byte(sheet: &Sheet) {
    let sound = sheet.encode();
    let mut refused = 0;
    for place in 0..sound.len() {
        let mut sheet = sound.clone();
        for value in 0..=255 {
            sheet[place] = value;
            refused += usize::from(!accepted(&sheet));
        }
    }
    // Every byte has far more wrong values than right ones, but for the two
    // bytes of the constants that are set.
    assert!(refused > 200 * sound.len());
}

#[test]
fn every_length() {
    showcases().iter().for_each(change_the_length);
}

fn change_the_length(sheet: &Sheet) {
    let sound = sheet.encode();
    for length in 0..sound.len() {
        assert!(!accepted(&sound[..length]), "cut at {length}");
    }
    for more in 1..40 {
        let mut sheet = sound.clone();
        sheet.extend(vec![b'I'; more]);
        assert!(!accepted(&sheet), "extended by {more}");
    }
}

#[test]
fn every_limit_of_every_field() {
    showcases().iter().for_each(change_each_field);
}

fn change_each_field(sheet: &Sheet) {
    let sound = sheet.encode();
    let (mut inside, mut outside) = (0, 0);
    for (at, place) in sheet.places() {
        for field in fields(sheet, at) {
            for &value in &field.values {
                let mut bytes = sound.clone();
                write_field(&mut bytes, place, &field, value);
                match accepted(&bytes) {
                    true => inside += 1,
                    false => outside += 1,
                }
            }
        }
    }
    assert!(inside > 0 && outside > 0);
}

/// Two bytes at once, so that one flaw may hide another.
#[test]
fn pairs_of_marks_and_fields() {
    showcases().iter().for_each(change_pairs);
}

fn change_pairs(sheet: &Sheet) {
    let sound = sheet.encode();
    let places: Vec<usize> = sheet.places().iter().map(|&(_, place)| place).collect();
    for (index, &first) in places.iter().enumerate() {
        for &second in &places[index..] {
            for (near, far) in [(0, 2), (2, 0), (2, 3), (3, 2)] {
                let mut bytes = sound.clone();
                bytes[first + near] = 200;
                bytes[second + far] = 201;
                assert!(!accepted(&bytes), "{first} and {second}");
            }
        }
    }
}
