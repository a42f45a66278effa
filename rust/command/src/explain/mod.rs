//! Why a sheet is refused, told with the words of its text.

mod access;
mod layout;
mod settling;

use crate::engine::{disagree, Refusal};
use crate::located::Located;
use crate::source::Source;
use crate::Failure;
use reference::MAX_SHEET;
use text::field::Field;

/// What is wrong with the refused record.
pub struct Explanation {
    /// The parts of the record that break the rule; none for all of it.
    pub parts: Vec<Field>,
    pub lines: Vec<String>,
}

impl Explanation {
    fn new(parts: Vec<Field>, lines: Vec<String>) -> Self {
        Explanation { parts, lines }
    }
}

/// A refusal, the record that it is about, and what is wrong with that.
pub struct Refused {
    pub refusal: Refusal,
    /// None for 1 and 10, which are about no record.
    pub at: Option<Located>,
    pub reason: Vec<String>,
}

/// Tells why a sheet is refused.
pub fn explain(source: &Source, refusal: Refusal) -> Result<Refused, Failure> {
    let Refusal { number, place } = refusal;
    let explanation = match number {
        1 => Some(overlong(source)),
        2..=5 => layout::explain(source, refusal),
        6..=9 => access::explain(source, refusal),
        20 | 21 => settling::explain(source, refusal),
        _ => Some(Explanation::new(Vec::new(), Vec::new())),
    };
    let explanation = explanation.ok_or_else(|| disagree(&refusal, &"that nothing is wrong"))?;
    let about_record = matches!(number, 2..=9 | 20 | 21);
    Ok(Refused {
        refusal,
        at: about_record.then(|| Located::new(source, place, &explanation.parts)),
        reason: explanation.lines,
    })
}

fn overlong(source: &Source) -> Explanation {
    let (bytes, most) = (source.sheet.len(), figure(MAX_SHEET));
    let line = match source.is_cut {
        true => format!("the sheet has more than {most} bytes, the most that there may be"),
        false => format!(
            "the sheet has {} bytes, {} more than there may be",
            figure(bytes),
            figure(bytes.saturating_sub(MAX_SHEET))
        ),
    };
    Explanation::new(Vec::new(), vec![line])
}

/// A number with a comma before every three digits but the first.
fn figure(number: usize) -> String {
    let digits = number.to_string();
    let mut said = String::new();
    for (index, digit) in digits.chars().enumerate() {
        if index > 0 && (digits.len() - index).is_multiple_of(3) {
            said.push(',');
        }
        said.push(digit);
    }
    said
}

#[cfg(test)]
mod tests {
    use super::{explain, figure, Refusal};
    use crate::options::Form;
    use crate::source::Source;
    use text::{assemble, Assembled};

    /// What is said of a text that is refused so.
    fn said(text: &str, number: u64, place: usize) -> Vec<String> {
        let assembled = assemble(text).unwrap_or_else(|errors| panic!("{}", errors[0]));
        let Assembled {
            sheet,
            listing,
            names,
        } = assembled;
        let source = Source {
            name: String::from("a text"),
            form: Form::Text,
            sheet,
            is_cut: false,
            text: String::from(text),
            listing,
            names,
        };
        let refused = explain(&source, Refusal { number, place });
        refused.map_or_else(|_| Vec::new(), |refused| refused.reason)
    }

    const END: &str = "IN 17 255 255 255 0\n";
    const HEAD: &str = "PR 0 0 0 255 1\n";

    /// A main, and a procedure with these records after its head.
    fn raw(of_main: &str, of_other: &str) -> String {
        let types = "raw\nHD 1 1 0 2\nTY 2 0 255 255 255 255 255 255 255 255\n";
        format!("{types}{HEAD}{of_main}{END}{HEAD}{of_other}{END}")
    }

    #[test]
    fn a_name_that_is_misplaced_is_told_by_its_field() {
        for (text, place, due) in [
            (
                "type t (s: integer, r: tray[?R]{})\nprocedure main\n return",
                6,
                "slot r of t: tray[?R]{}, and a slot cannot be ?R",
            ),
            (
                "procedure main\n variable v: ?R\n return",
                20,
                "inner: ?R, and main has no rights name",
            ),
            (
                "procedure main\n return\nprocedure p gives tray[?R]{}\n variable v: integer\n return v",
                40,
                "result: tray[?R]{}, and procedure p declares no rights name",
            ),
            (
                "procedure main\n return\nprocedure p\n formal v: ?R as integer\n return",
                42,
                "need: ?R, and procedure p declares no rights name",
            ),
        ] {
            assert_eq!(said(text, 5, place), [due], "{text}");
        }
    }

    #[test]
    fn the_record_of_a_name_has_limits() {
        for (record, due) in [
            (
                "GN 2 7\n",
                "least set of ?R: 0b0000000000000111, and open, right 0, is none of its rights",
            ),
            (
                "GN 2 8\n",
                "least set of ?R: 0b0000000000001000, and type 2 names the rights 1 to 2",
            ),
            (
                "GN 3 0\n",
                "base of ?R: 3, it must be a declared type, from 2 to 2",
            ),
        ] {
            assert_eq!(said(&raw("", record), 5, 42), [due]);
        }
        let name = "GN 2 2\n";
        let elsewhere = "the mark IN is due here, found `GN`, which stands only right after the PR of a procedure other than main, and once";
        assert_eq!(said(&raw(name, ""), 3, 26), [elsewhere]);
        assert_eq!(said(&raw("", &[name, name].concat()), 3, 47), [elsewhere]);
        let cut = raw("", "bytes 47 4E 02\n");
        let cut = cut.strip_suffix(END).unwrap_or_default();
        let due = "GN, a record of 5 bytes, is due here, and 3 bytes are left";
        assert_eq!(said(cut, 2, 42), [due]);
    }

    #[test]
    fn calls_that_do_not_settle_a_name_are_told() {
        let text = "type t{a}\nprocedure main\n variable v: t{a}\n variable w: t{}\n call p(v, w)\n call q(w)\n return\n\
            procedure p for ?R >= t{}\n formal v, w: ?R\n return\nprocedure q for ?R >= t{a}\n formal v: ?R\n return";
        let due = "v settles ?R to t{a}, w to t{}";
        assert_eq!(said(text, 20, 52), [due]);
        let due = ["settled to t{}, but q needs at least t{a}", "lacks a"];
        assert_eq!(said(text, 21, 60), due);
    }

    #[test]
    fn a_comma_stands_before_every_three_digits() {
        let said = [0, 999, 1_000, 32_806, 123_456, 5_592_403].map(figure);
        let expected = ["0", "999", "1,000", "32,806", "123,456", "5,592,403"];
        assert_eq!(said, expected);
    }
}
