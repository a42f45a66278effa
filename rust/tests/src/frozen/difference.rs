//! A sheet as its difference to the one before: hexadecimal digits for new
//! bytes, and `(start+length)` for bytes that have been seen, counted from the
//! first byte of the sheet before. A copy may reach into what it writes.

use std::cmp::Reverse;

/// A shorter copy takes more room than its bytes do.
const LEAST: usize = 5;

/// The difference that [`applied`] takes to the sheet.
pub fn difference(before: &[u8], sheet: &[u8]) -> String {
    let whole = [before, sheet].concat();
    let mut text = String::new();
    let mut at = before.len();
    while at < whole.len() {
        let (start, length) = longest_copy(&whole, at);
        if length < LEAST {
            text += &format!("{:02x}", whole[at]);
            at += 1;
        } else {
            text += &format!("({start}+{length})");
            at += length;
        }
    }
    text
}

/// The first place before this one at which most of what comes here stands.
fn longest_copy(whole: &[u8], at: usize) -> (usize, usize) {
    let length = |start: usize| {
        let pairs = whole[start..].iter().zip(&whole[at..]);
        pairs.take_while(|(old, new)| old == new).count()
    };
    let copies = (0..at).map(|start| (start, length(start)));
    let longest = copies.max_by_key(|&(start, length)| (length, Reverse(start)));
    longest.unwrap_or((0, 0))
}

/// The sheet that differs so from the one before; None if the text is not as
/// [`difference`] writes it.
pub fn applied(before: &[u8], difference: &str) -> Option<Vec<u8>> {
    let mut whole = before.to_vec();
    for (number, part) in difference.split(['(', ')']).enumerate() {
        match number % 2 {
            0 => whole.extend(bytes(part)?),
            _ => copy(&mut whole, part)?,
        }
    }
    Some(whole.split_off(before.len()))
}

fn copy(whole: &mut Vec<u8>, part: &str) -> Option<()> {
    let (start, length) = part.split_once('+')?;
    let (start, length): (usize, usize) = (start.parse().ok()?, length.parse().ok()?);
    for place in start..start + length {
        whole.push(*whole.get(place)?);
    }
    Some(())
}

fn bytes(digits: &str) -> Option<Vec<u8>> {
    let digits = digits.chars().map(|digit| Some(digit.to_digit(16)? as u8));
    let digits: Vec<u8> = digits.collect::<Option<_>>()?;
    let pair = |pair: &[u8]| Some(16 * pair[0] + pair.get(1)?);
    digits.chunks(2).map(pair).collect()
}

#[cfg(test)]
mod tests {
    use super::{applied, difference};
    use generator::Random;

    #[test]
    fn a_difference_is_short_and_leads_back() {
        for (before, sheet, text) in [
            (&b""[..], &b""[..], ""),
            (b"", b"HD\x01", "484401"),
            (b"abcdefgh", b"abcdeXdefgh", "(0+5)58(3+5)"),
            (b"", b"zzzzzzzzz", "7a(0+8)"),
        ] {
            assert_eq!(difference(before, sheet), text);
            assert_eq!(applied(before, text).as_deref(), Some(sheet));
        }
    }

    #[test]
    fn any_bytes_come_back() {
        let mut before = Vec::new();
        for seed in 0..300 {
            let mut random = Random::new(seed);
            let count = random.below(90);
            let few: Vec<u8> = (0..count).map(|_| random.below(3) as u8).collect();
            let sheet = [&few, &before[..before.len().min(40)], &random.bytes(9)].concat();
            let text = difference(&before, &sheet);
            assert_eq!(applied(&before, &text), Some(sheet.clone()));
            before = sheet;
        }
    }

    #[test]
    fn other_texts_are_no_difference() {
        for text in ["4", "4g", "(0)", "(2+1)", "(3+1)", "(a+1)"] {
            assert_eq!(applied(b"ab", text), None, "{text}");
        }
    }
}
